#include "many.h"

long slots[26];
char scratch[8];

static int index_of(char name) {
    if (name < 'a' || name > 'z') leave(97);
    return name - 'a';
}

long value_of(char name) {
    return slots[index_of(name)];
}

void give(char name, long value) {
    long *all = slots;
    HIDDEN(all);
    all[index_of(name)] = value;
}
