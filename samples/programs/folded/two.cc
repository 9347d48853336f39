#include "folded.h"

long second_half() {
    list<int> a;
    list<unsigned> b;
    list<const char *> c;
    list<word *> d;
    static word places[4];
    for (int n = 1; n < 9; n++) { a.add(n - 4); b.add((unsigned)n << 28); c.add("text"); d.add(places + n % 4); }
    put_text(named<int>(a.place_of(0)));
    put_text(named<unsigned>(0));
    put_text("\n");
    return a.greatest() + (long)(b.greatest() >> 28) + a.place_of(-1) + b.place_of(7u << 28) + d.place_of(places + 3) + (c.place_of(nullptr) == -1) +
        odd<long>(11) * 100 + odd<unsigned long>(12) + sum_to<unsigned long>(6) + sum_to<int>(4) + (d.greatest() == places + 3);
}
