#include "templates.h"

extern const long numbers[] = { 4, 8, 15, 16, 23, 42 };

long work_of_sums() { return largest(numbers, 6) + next_number() + counted(0); }

MARK(idle_sums);
long idle_sums() { return largest(numbers, 3) * seen(mark_idle_sums) + idle_inline(4); }

__attribute__((constructor(250))) static void build_between() { built('m'); }
