#include "templates.h"

// Nothing asks for anything of this file.
MARK(idle_file);
long idle_file(long n) {
    short small[] = { 5, 4, (short)n };
    sort(small, 3);
    return idle_inline(n) + seen(mark_idle_file) + largest(small, 3);
}

extern long nowhere(long n);    // what is dropped may lack it
MARK(idle_lacking);
long idle_lacking(long n) { return nowhere(n) + seen(mark_idle_lacking); }
