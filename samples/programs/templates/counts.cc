#include "templates.h"

long work_of_counts() {
    long sum = 0;
    for (word i = 0; i < 4; i++) sum += counted(i);
    return sum + next_number();
}

// asked for by nothing, and told to stay
MARK(held);
__attribute__((used, retain)) static long held() { return seen(mark_held); }
