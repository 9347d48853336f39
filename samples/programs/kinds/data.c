#include "kinds.h"

int shared[4];
long total = 1000;
long far_away[4096] = { [1] = 1, [2000] = 20, [4095] = 300 };
static long last_far[1024];
const char *const titles[] = { "a title\n", "another title\n", "a title\n", "title\n", 0 };
long *const place = &far_away[4095];
const int small = 3;
const unsigned char bytes[] = { 1, 2, 3 };
static const double half = 0.5;

long far_sum(void) {
    last_far[1000] = 4000;
    volatile double h = half;
    return far_away[1] + far_away[2000] + far_away[4095] + last_far[1000] + *place + small + bytes[2] + (long)(h * 4);
}

long *behind(void) { return place + 1; }
