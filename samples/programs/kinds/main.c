#include "kinds.h"

int shared[8];                                  // a common; data.c has a smaller one
__thread long of_main = 5;
static __thread long own_zero;
static long calls;

static long twice(long n) { calls++; return n * 2; }
static long thrice(long n) { calls++; return n * 3; }
static long (*volatile ways[])(long) = { twice, thrice, twice };

__attribute__((constructor)) static void first_of_main(void) { note_order('m'); }

int main(void) {
    put_text("order: ");
    put_text(order);
    put_text("\n");
    for (long way = 0; way < 14; way++) {
        put_number(called(way), jumped(way));
    }
    put_number("chosen", chosen());
    put_number("weight", weight);
    put_number("absent", absent ? absent() : -1);
    put_number("nothing", &nothing ? nothing : -2);
    shared[7] = 3;
    shared[0] = 4;
    put_number("total", total + shared[7] + shared[0]);
    for (int at = 0; titles[at]; at++) put_text(titles[at]);
    put_number("far", far_sum());
    put_number("behind", behind() - far_away);
    of_main += 7;
    own_zero++;
    put_number("threads", count_up() + count_up() + counted + of_main + own_zero + zeros[39] + hidden_count());
    put_text(thread_text());
    put_number("set", set_sum());
    put_number("sets", set_count());
    put_number("ways", ways[0](5) + ways[1](5) + ways[2](7) + calls);
    return 42;
}
