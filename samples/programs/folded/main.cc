#include "folded.h"

static long four(void) { return 4; }
static long also_four(void) { return 4; }
static long five(void) { return 5; }
static long (*volatile const ways[])(void) = { four, also_four, five };

long numbered(long n) { return ways[n](); }

static long of(const shape &it) { return it.corners() * 100 + it.sides(); }

extern "C" [[noreturn]] __attribute__((used)) void begin() {
    put_number("first", first_half());
    put_number("second", second_half());
    square a;
    table b;
    star c;
    const shape *volatile all[] = { &a, &b, &c };
    for (int at = 0; at < 3; at++) put_number("shape", of(*all[at]));
    put_number("ways", numbered(0) * 100 + numbered(1) * 10 + numbered(2));
    leave(first_half() % 100);
}

__asm__(".text\n.globl _start\n.type _start, @function\n_start:\nandi sp, sp, -16\ncall begin\n.size _start, . - _start\n");
