#include "kinds.h"

__attribute__((weak)) long chosen(void) { return 1; }
long weight __attribute__((weak)) = 10;
__attribute__((weak)) long unused_weak(void) { return chosen() + weight; }
