#include "many.h"

long depth;               // a common; factor.c and shared.c have it too
char scratch[16];         // the smallest of three; the greatest is in shared.c
long slots[4];            // slots.c has room for all names

// Named arrays, since the bare texts would go to a section of strings to be merged.
const char line_a[] = "a=6*7";
const char line_b[] = "b=(a+8)/5";
const char line_c[] = "c=a-b*-2";
const char line_d[] = "d=max(a,b)%5+min(c,d)";
const char line_z[] = "z=((((1+2)*3)+4)*5)";
const char line_sum[] = "a=a+b+c+d+z";
const char *const programs[] = { line_a, line_b, line_c, line_d, line_z, line_sum, 0 };

const char arrow[] = " -> ";
const char line_end[] = "\n";
const char with_notes[] = "noted\n";
const char without_notes[] = "no notes\n";
const char good[] = "whole\n";
const char bad[] = "broken\n";

static void run(const char *line) {
    look_at(line);
    char name = take();
    take();
    give(name, expression());
    put_text(line);
    put_text(arrow);
    put_number(value_of(name));
    put_text(line_end);
}

__attribute__((noreturn)) void _start(void) {
    for (const char *const *line = programs; *line; line++) run(*line);
    put_text(noted() ? with_notes : without_notes);
    put_text(shared_is_whole() ? good : bad);
    flush();
    leave(value_of('a') % 100 + depth);
}
