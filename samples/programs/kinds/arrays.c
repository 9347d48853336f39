#include "kinds.h"

char order[16];
int orders;

void note_order(char mark) { order[orders++] = mark; }

typedef void action(void);
static void before_all(void) { note_order('p'); }
static void late(void) { note_order('l'); }
static void early(void) { note_order('e'); }
static void plain(void) { note_order('i'); }
static void at_end(void) { put_text("the end\n"); }
static void at_very_end(void) { put_text("the very end\n"); }

__attribute__((section(".preinit_array"), used)) static action *const before = before_all;
__attribute__((constructor(1100))) static void constructed_late(void) { late(); }
__attribute__((constructor(200))) static void constructed_early(void) { early(); }
__attribute__((constructor)) static void constructed(void) { plain(); }
__attribute__((destructor)) static void destructed(void) { at_end(); }
__attribute__((destructor(300))) static void destructed_last(void) { at_very_end(); }
