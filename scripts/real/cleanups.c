/* C between frames of C++: what it has to clean up is cleaned up when an exception goes through it (-fexceptions), and nothing else of it is done. */
#include <stdio.h>

typedef void call(int);

static int held;

static void leave(int *what) {
    held--;
    printf("  C leaves %d\n", *what);
}

int now_held(void) { return held; }

void through(call *next, int n) {
    held++;
    __attribute__((cleanup(leave))) int what = n;
    next(n);
    printf("  C ends %d\n", what);
}

/* The same with a frame of a size that is not known before, so that the records tell of another register than the stack pointer. */
void through_wide(call *next, int n) {
    held++;
    __attribute__((cleanup(leave))) int what = n;
    volatile char room[n * 100 + 1];
    room[n * 100] = (char)n;
    next(room[n * 100]);
    printf("  C ends %d\n", what);
}

/* Fifty frames deep, each of which cleans up. */
void through_deep(call *next, int n) {
    held++;
    __attribute__((cleanup(leave))) int what = n;
    if (n % 50 != 0)
        through_deep(next, n - 1);
    else
        next(n);
    printf("  C ends %d\n", what);
}
