#include "templates.h"

long work_of_sorts() {
    long numbers[] = { 3, 1, 2, 9, -4 };
    short small[] = { 7, -7, 0, 5 };
    sort(numbers, 5);
    sort(small, 4);
    return numbers[0] * 1000 + small[3] * 10 + largest(numbers, 5);
}

// two that ask for each other, and nothing for them
MARK(idle_ring_a);
MARK(idle_ring_b);
long idle_ring_b(long n);
long idle_ring_a(long n) { return n ? idle_ring_b(n - seen(mark_idle_ring_a)) : 1; }
long idle_ring_b(long n) { return n ? idle_ring_a(n - seen(mark_idle_ring_b)) : 2; }

__attribute__((constructor)) static void build_sorts() { built('d'); }
