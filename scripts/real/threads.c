/* Threads: each has thread-local variables of its own, with their first values, and they meet at a mutex. */
#include <errno.h>
#include <pthread.h>
#include <stdio.h>
#include <stdlib.h>

enum { THREADS = 8, STEPS = 2000 };

static _Thread_local int started = 17;
static _Thread_local long counted;
static pthread_mutex_t door = PTHREAD_MUTEX_INITIALIZER;
static long all, first_values;

static void *count(void *given) {
    long mine = (long)given;
    pthread_mutex_lock(&door);
    first_values += started + counted;
    pthread_mutex_unlock(&door);
    started = (int)mine;
    for (int i = 0; i < STEPS; i++) {
        counted += mine;
        errno = (int)mine;
        pthread_mutex_lock(&door);
        all++;
        pthread_mutex_unlock(&door);
        if (errno != mine || started != mine)
            abort();
    }
    return (void *)counted;
}

int main(void) {
    pthread_t threads[THREADS];
    for (long i = 0; i < THREADS; i++)
        if (pthread_create(&threads[i], NULL, count, (void *)(i + 1)) != 0)
            return 2;
    long sum = 0;
    for (int i = 0; i < THREADS; i++) {
        void *result;
        pthread_join(threads[i], &result);
        sum += (long)result;
    }
    printf("%ld steps, sum %ld, first values %ld, here %d and %ld\n", all, sum, first_values, started, counted);
    puts("end of threads");
    return 0;
}
