#include "many.h"

long depth;
static const long limit = 100;

static int is_letter(char c) {
    return c >= 'a' && c <= 'z';
}

static long inner(void) {
    long *deepest = &depth;
    HIDDEN(deepest);
    if (++*deepest > limit) leave(98);
    take();
    long value = expression();
    take();
    return value;
}

static long named(void) {
    char name[8];
    word length = 0;
    while (is_letter(next()) && length < sizeof name) name[length++] = take();
    if (length == 1) return value_of(name[0]);
    take();
    long a = expression();
    take();
    long b = expression();
    take();
    return call(name, length, a, b);
}

long factor(void) {
    if (next() == '(') return inner();
    if (is_letter(next())) return named();
    if (next() == '-') {
        take();
        return -factor();
    }
    long value = 0;
    while (next() >= '0' && next() <= '9') value = value * 10 + (take() - '0');
    return value;
}
