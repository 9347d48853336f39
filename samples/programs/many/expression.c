#include "many.h"

static long joined(long left) {
    for (;;) {
        if (next() == '+') {
            take();
            left += term();
        } else if (next() == '-') {
            take();
            left -= term();
        } else {
            return left;
        }
    }
}

long expression(void) {
    return joined(term());
}
