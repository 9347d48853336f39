// What needs records of a C library's own functions too, as glibc has them. Threads that are cancelled or end themselves: their stacks are unwound, through C++
// with destructors and handlers and through C with cleanups (cleanups.c). Exceptions through qsort, bsearch and pthread_once. A list of the calls that are under way.
#include <atomic>
#include <cstdio>
#include <cstdlib>
#include <cxxabi.h>
#include <execinfo.h>
#include <mutex>
#include <pthread.h>
#include <thread>
#include <vector>
#include <unistd.h>
#include <unwind.h>

extern "C" {
typedef void call(int);
void through(call *next, int n);
void through_wide(call *next, int n);
int now_held();
}

static pthread_mutex_t door = PTHREAD_MUTEX_INITIALIZER;
static pthread_cond_t turn = PTHREAD_COND_INITIALIZER;
static int waits, destroyed, caught;

struct Guard {
    ~Guard() { destroyed++; }
};

static void release(void *) { pthread_mutex_unlock(&door); }

__attribute__((noinline)) static void wait(int n) {
    Guard guard;
    pthread_mutex_lock(&door);
    pthread_cleanup_push(release, nullptr);
    waits = n;
    pthread_cond_signal(&turn);
    while (waits != 0)
        pthread_cond_wait(&turn, &door);
    pthread_cleanup_pop(1);
}

__attribute__((noinline)) static void leave(int n) {
    Guard guard;
    pthread_exit(reinterpret_cast<void *>(static_cast<long>(n)));
}

static call *last;

__attribute__((noinline)) static void passed(int n) {
    Guard guard;
    try {
        through_wide(last, n);
    } catch (abi::__forced_unwind &) {
        caught++;
        throw;
    }
}

static void *begin(void *n) {
    Guard guard;
    try {
        through(passed, static_cast<int>(reinterpret_cast<long>(n)));
    } catch (int) {
        std::puts("not here");
    } catch (...) {
        caught++;
        throw;
    }
    return nullptr;
}

static int listed(int depth);
static int (*volatile deeper)(int) = listed;

__attribute__((noinline)) static int listed(int depth) {
    if (depth > 0)
        return deeper(depth - 1) | 0x100;
    void *calls[64];
    int count = backtrace(calls, 64), own = 0;
    for (int i = 0; i < count; i++)
        if (_Unwind_FindEnclosingFunction(static_cast<char *>(calls[i]) - 1) == reinterpret_cast<void *>(listed))
            own++;
    return own;
}

// exceptions out of what functions of C call
static int compared;
static int compares(const void *a, const void *b) {
    if (++compared == 9)
        throw compared;
    return *static_cast<const int *>(a) - *static_cast<const int *>(b);
}
static int finds(const void *key, const void *one) {
    if (*static_cast<const int *>(one) == 6)
        throw "six";
    return *static_cast<const int *>(key) - *static_cast<const int *>(one);
}

static void by_c() {
    int list[] = {5, 3, 9, 1, 7, 2, 8, 6, 4, 0};
    try {
        std::qsort(list, 10, sizeof list[0], compares);
    } catch (int n) {
        std::printf("qsort: %d\n", n);
    }
    compared = 10;
    std::qsort(list, 10, sizeof list[0], compares);
    const int key = 6;
    try {
        std::printf("bsearch: %s\n", std::bsearch(&key, list, 10, sizeof list[0], finds) == nullptr ? "none" : "one");
    } catch (const char *text) {
        std::printf("bsearch: %s\n", text);
    }
    std::once_flag once;
    std::atomic<int> tries(0), done(0);
    std::vector<std::thread> threads;
    for (int i = 0; i < 8; i++)
        threads.emplace_back([&] {
            for (;;)
                try {
                    std::call_once(once, [&] {
                        if (++tries < 5)
                            throw tries.load();
                        done++;
                    });
                    return;
                } catch (int) {
                }
        });
    for (std::thread &thread : threads)
        thread.join();
    std::printf("once: %d of %d tries\n", done.load(), tries.load());
}

int main() {
    by_c();
    void *result;
    pthread_t thread;
    for (int round = 0; round < 3; round++) {
        last = wait;
        if (pthread_create(&thread, nullptr, begin, reinterpret_cast<void *>(5L)) != 0)
            return 2;
        pthread_mutex_lock(&door);
        while (waits == 0)
            pthread_cond_wait(&turn, &door);
        pthread_mutex_unlock(&door);
        pthread_cancel(thread);
        pthread_join(thread, &result);
        std::printf("cancelled: %s, %d destroyed, %d caught, C holds %d, the door is %s\n", result == PTHREAD_CANCELED ? "so it says" : "no", destroyed, caught, now_held(),
                    pthread_mutex_trylock(&door) == 0 ? "open" : "closed");
        pthread_mutex_unlock(&door);
        waits = 0;
        last = leave;
        if (pthread_create(&thread, nullptr, begin, reinterpret_cast<void *>(7L)) != 0)
            return 2;
        pthread_join(thread, &result);
        std::printf("left with %ld, %d destroyed, %d caught, C holds %d\n", reinterpret_cast<long>(result), destroyed, caught, now_held());
    }
    std::printf("listed: %d and %d\n", listed(0) & 0xff, listed(20) & 0xff);
    std::puts("end of cancels");
}
