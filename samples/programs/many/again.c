#include "many.h"

// A second strong definition of a name of slots.c.
long value_of(char name) {
    return name;
}
