#include "many.h"

void *memset(void *to, int value, word count) {
    volatile char *at = to;
    while (count--) *at++ = (char)value;
    return to;
}

void *memcpy(void *to, const void *from, word count) {
    volatile char *at = to;
    const char *source = from;
    while (count--) *at++ = *source++;
    return to;
}

int same(const char *a, const char *b, word count) {
    while (count--)
        if (*a++ != *b++) return 0;
    return 1;
}
