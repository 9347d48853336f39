#include "folded.h"

long first_half() {
    list<long> a;
    list<unsigned long> b;
    list<long long> c;
    for (long n = 1; n < 9; n++) { a.add(n * n); b.add((unsigned long)(n * 3)); c.add(100 - n); }
    put_text(named<long>(a.place_of(16)));
    put_text(named<unsigned long>((unsigned long)b.place_of(3)));
    put_text("\n");
    return a.greatest() + (long)b.greatest() + (long)c.greatest() + a.place_of(49) + b.place_of(24) + c.place_of(7) + even<long>(10) * 1000 +
        even<long long>(7) + sum_to<long>(20) + sum_to<long long>(5);
}
