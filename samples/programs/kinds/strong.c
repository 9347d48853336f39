#include "kinds.h"

long weight = 77;
long chosen(void) { return weight + (absent ? 1 : 2); }
