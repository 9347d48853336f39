#include "many.h"

static const char *at;
static word used;

void look_at(const char *text) {
    const char **where = &at;
    HIDDEN(where);
    *where = text;
}

char next(void) {
    return *at;
}

char take(void) {
    const char **where = &at;
    word *count = &used;
    HIDDEN(where);
    HIDDEN(count);
    ++*count;
    return *(*where)++;
}

word steps(void) {
    return used;
}
