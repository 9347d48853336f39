#include "many.h"

__attribute__((weak)) word base_of(void) {
    return 2;
}

__attribute__((weak)) const char mark[] = "the weak mark";
