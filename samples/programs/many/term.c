#include "many.h"

static long joined(long left) {
    for (;;) {
        char sign = next();
        if (sign != '*' && sign != '/' && sign != '%') return left;
        take();
        long right = factor();
        if (sign == '*') left *= right;
        else if (right == 0) leave(99);
        else if (sign == '/') left /= right;
        else left %= right;
    }
}

long term(void) {
    return joined(factor());
}
