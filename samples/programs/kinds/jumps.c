#include "kinds.h"

static volatile long seen;

long jumped(long way) {
    switch (way) {
    case 0: seen = 17; return way + 1;
    case 1: seen = 4; return seen * 3;
    case 2: return seen - 9;
    case 3: seen += 100; return seen / 2;
    case 4: return way * way * way;
    case 5: seen = 3; return ~way;
    case 6: return seen << 7;
    case 7: seen ^= 0x55; return seen;
    case 8: return way - 1000;
    case 9: seen = way; return way % 4 + seen;
    case 11: return 11111;
    case 12: return seen + 12;
    default: return -seen;
    }
}

const char *called(long way) {
    static const char *const names[] = { "none", "one", "two", "three", "four", "five", "six", "seven", "eight", "nine" };
    if (way >= 0 && way < 10) return names[way];
    return way == 11 ? "eleven" : way == 12 ? "twelve" : "none";
}
