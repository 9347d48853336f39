#include "kinds.h"

__thread long counted = 40;
__thread char zeros[40];
static __thread long hidden = 9;
static __thread const char *text = "a thread's text\n";

long count_up(void) { zeros[39]++; return ++counted; }
long hidden_count(void) { return hidden++ + zeros[0]; }
const char *thread_text(void) { return text; }
