#include "kinds.h"

#define ENTRY(name, value) static const struct entry entry_##name __attribute__((section("entries"), used)) = { #name, value }
ENTRY(one, 1);
ENTRY(two, 20);
ENTRY(three, 300);

extern const struct entry __start_entries[], __stop_entries[];

long set_sum(void) {
    long sum = 0;
    for (const struct entry *at = __start_entries; at != __stop_entries; at++) sum += at->value;
    return sum;
}

long set_count(void) { return __stop_entries - __start_entries; }
