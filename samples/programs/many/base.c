#include "many.h"

const char mark[] = "the strong mark";

word base_of(void) {
    return mark[4] == 's' ? 10 : 16;
}
