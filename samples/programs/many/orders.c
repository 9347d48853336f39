#include "many.h"

static const char least[] = "min";
static const char greatest[] = "max";

static long least_of(long a, long b) {
    return a < b ? a : b;
}

static long greatest_of(long a, long b) {
    return a > b ? a : b;
}

const struct order orders[] = { { greatest, greatest_of }, { least, least_of }, { 0, 0 } };

long call(const char *name, word length, long a, long b) {
    for (const struct order *order = orders; order->name; order++)
        if (length == 3 && same(order->name, name, length)) return order->work(a, b);
    leave(96);
}
