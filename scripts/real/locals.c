/* Thread-local variables, with first values and without, and errno. */
#include <errno.h>
#include <stdio.h>
#include <stdlib.h>

_Thread_local int counter = 40;
_Thread_local char text[12] = "local";
_Thread_local long long zeros[8];
static _Thread_local struct { short small; double real; } pair __attribute__((aligned(32))) = { 7, 0.5 };

__attribute__((noinline)) static int *place(void) { return &counter; }

int main(void) {
    *place() += 2;
    long long sum = 0;
    for (int i = 0; i < 8; i++) {
        sum += zeros[i];
        zeros[i] = i;
    }
    text[0] = 'v';
    printf("counter %d, text %s, zeros %lld, pair %d %g, aligned %d\n", counter, text, sum, pair.small, pair.real, (int)((long)&pair % 32));
    errno = 0;
    long most = strtol("99999999999999999999", NULL, 10);
    printf("strtol gives %ld, errno is ERANGE: %d\n", most, errno == ERANGE);
    puts("end of locals");
    return zeros[7] == 7 ? 0 : 1;
}
