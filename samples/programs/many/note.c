#include "many.h"

const char noted_text[] = "a note";
void (*const note_of[])(const char *) = { note };   // a word that is 0, since nothing defines note

int noted(void) {
    void (*const *first)(const char *) = note_of;
    HIDDEN(first);
    if (!*first) return 0;
    (*first)(noted_text);
    return 1;
}
