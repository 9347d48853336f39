#include "templates.h"

static char letters[16];
static word used;

void built(char letter) {
    char *to = letters;
    word *count = &used;
    HIDDEN(to);
    HIDDEN(count);
    to[(*count)++] = letter;
}

const char *all_built() { return letters; }

// constructors: those with a number first, in order of the numbers, then this file's others
MARK(build_c);
__attribute__((constructor)) static void build_c() { built(seen(mark_build_c) ? 'c' : '?'); }
__attribute__((constructor(300))) static void build_b() { built('b'); }
__attribute__((constructor(200))) static void build_a() { built('a'); }
