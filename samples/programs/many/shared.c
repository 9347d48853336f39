#include "many.h"

long depth;
char scratch[600] __attribute__((aligned(256)));   // the greatest size and the greatest alignment
char after[3];

static int is_zero(const char *bytes, word count) {
    while (count--)
        if (*bytes++) return 0;
    return 1;
}

const char ok[] = "ok";
extern const char mark[];   // base.c has it strong, base-default.c weak

// The whole of the greatest common can be written, and no other common changes by it.
int shared_is_whole(void) {
    char *all = scratch;
    char *rest = after;
    long *deepest = &depth;
    HIDDEN(all);
    HIDDEN(rest);
    HIDDEN(deepest);
    long before = *deepest;
    if (mark[4] != 's') return 0;
    if (((word)all & 255) || !is_zero(all, sizeof scratch)) return 0;
    memset(all, 0x5a, sizeof scratch);
    if (*deepest != before || !is_zero(rest, sizeof after) || value_of('z') != 65) return 0;
    memset(all, 0, sizeof scratch);
    memcpy(rest, ok, sizeof ok);
    return is_zero(all, sizeof scratch) && rest[0] == 'o' && before > 0;
}
