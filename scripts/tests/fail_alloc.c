// Preloaded into a program: its FAIL_ALLOC-th allocation finds no memory, and at the program's end the number of allocations
// is told in the file COUNT_TO. The C library's own allocations count too, as those for a thread that starts.
#define _GNU_SOURCE
#include <dlfcn.h>
#include <errno.h>
#include <fcntl.h>
#include <stdio.h>
#include <stdlib.h>
#include <string.h>
#include <sys/syscall.h>
#include <unistd.h>

static long count, fail;
static int finding;
static void *(*next_malloc)(size_t), *(*next_realloc)(void *, size_t);

// Whether the next functions are known; not while they are looked up, which may itself allocate.
static int found(void) {
    if (!next_malloc || !next_realloc) {
        if (finding) return 0;
        finding = 1;
        next_malloc = dlsym(RTLD_NEXT, "malloc");
        next_realloc = dlsym(RTLD_NEXT, "realloc");
        finding = 0;
    }
    return next_malloc && next_realloc;
}

static void __attribute__((constructor)) start(void) {
    const char *n = getenv("FAIL_ALLOC");
    found();
    fail = n ? atol(n) : 0;
    __atomic_store_n(&count, 0, __ATOMIC_SEQ_CST);
}

// Whether this allocation is the one that fails. Threads allocate at the same time.
static int fails(void) { return __atomic_add_fetch(&count, 1, __ATOMIC_SEQ_CST) == fail; }

static void tell(void) {
    const char *name = getenv("COUNT_TO");
    char line[32];
    int length = snprintf(line, sizeof line, "%ld\n", __atomic_load_n(&count, __ATOMIC_SEQ_CST));
    int file = name ? open(name, O_WRONLY | O_CREAT | O_TRUNC, 0644) : -1;
    if (file < 0) return;
    if (write(file, line, (size_t)length) != length) unlink(name);
    close(file);
}

// A program that returns from main or calls exit comes by here; one that calls _exit runs no destructor.
static void __attribute__((destructor)) end(void) { tell(); }

void _exit(int status) {
    tell();
    for (;;) syscall(SYS_exit_group, status);
}

// The C library looks at errno where its own allocations fail.
static void *none(void) {
    errno = ENOMEM;
    return NULL;
}

void *malloc(size_t size) {
    if (!found() || fails()) return none();
    return next_malloc(size);
}

void *realloc(void *old, size_t size) {
    if (!found() || fails()) return none();
    return next_realloc(old, size);
}

void *calloc(size_t number, size_t size) {
    size_t all;
    if (!found() || fails() || __builtin_mul_overflow(number, size, &all)) return none();
    void *made = next_malloc(all);
    return made ? memset(made, 0, all) : NULL;
}
