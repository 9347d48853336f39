/* What GCC's unwinder asks of a C library, for a program without one and with one thread. How it finds the records is up to the unwinder: that of Linux asks
 * the functions at the end, which find the table of records by the program's own headers; that for machines without a system has a list, to which crtbegin.o
 * (or registers.c) adds what `.eh_frame` has. */
#define _GNU_SOURCE
#include <stddef.h>
#include <stdint.h>

long ask(long number, long a, long b, long c); /* start.c's */

typedef void call(void);
extern call *const __fini_array_start[], *const __fini_array_end[];

_Noreturn void exit(int status) {
    for (call *const *each = __fini_array_end; each != __fini_array_start;)
        (*--each)();
    for (;;)
        ask(93, status, 0, 0);
}

_Noreturn void abort(void) {
    for (;;)
        ask(93, 134, 0, 0);
}

static unsigned char heap[65536] __attribute__((aligned(16)));
static size_t used;

void *malloc(size_t size) {
    size = (size + 15) & ~(size_t)15;
    if (size > sizeof heap - used)
        return NULL;
    used += size;
    return heap + used - size;
}

void *calloc(size_t count, size_t size) { return malloc(count * size); } /* nothing of the heap is used twice */
void free(void *room) { (void)room; }

size_t strlen(const char *text) {
    size_t length = 0;
    while (((const volatile char *)text)[length] != 0)
        length++;
    return length;
}

void *memset(void *to, int value, size_t count) {
    for (size_t i = 0; i < count; i++)
        ((volatile unsigned char *)to)[i] = (unsigned char)value;
    return to;
}

void *memmove(void *to, const void *from, size_t count) {
    volatile unsigned char *a = to;
    const unsigned char *b = from;
    if ((uintptr_t)to < (uintptr_t)from)
        for (size_t i = 0; i < count; i++)
            a[i] = b[i];
    else
        for (size_t i = count; i-- > 0;)
            a[i] = b[i];
    return to;
}

void *memcpy(void *to, const void *from, size_t count) { return memmove(to, from, count); }

/* No other thread is there. */
int pthread_mutex_lock(void *mutex) { return mutex == NULL; }
int pthread_mutex_unlock(void *mutex) { return mutex == NULL; }
int pthread_rwlock_rdlock(void *lock) { return lock == NULL; }
int pthread_rwlock_wrlock(void *lock) { return lock == NULL; }
int pthread_rwlock_unlock(void *lock) { return lock == NULL; }
int pthread_cond_wait(void *condition, void *mutex) { return condition == mutex; }
int pthread_cond_broadcast(void *condition) { return condition == NULL; }
int pthread_once(int *done, call *what) {
    if (*done == 0)
        what();
    *done = 1;
    return 0;
}

#ifdef __linux__
#include <dlfcn.h>
#include <link.h>

extern const unsigned char __ehdr_start[], _end[]; /* the file header, which stands in memory before the program headers; and where all ends */

/* What the dynamic linker tells of an object: here there is one, from its headers to its end. */
int dl_iterate_phdr(int (*told)(struct dl_phdr_info *, size_t, void *), void *data) {
    const ElfW(Ehdr) *file = (const void *)__ehdr_start;
    struct dl_phdr_info info = { 0 };
    info.dlpi_name = "";
    info.dlpi_phdr = (const void *)(__ehdr_start + file->e_phoff);
    info.dlpi_phnum = file->e_phnum;
    return told(&info, sizeof info, data);
}

int _dl_find_object(void *at, struct dl_find_object *found) {
    const ElfW(Ehdr) *file = (const void *)__ehdr_start;
    const ElfW(Phdr) *headers = (const void *)(__ehdr_start + file->e_phoff);
#ifdef NO_TABLE /* as if there were none: what is on the list is found before */
    return -1;
#endif
    if ((const unsigned char *)at < __ehdr_start || (const unsigned char *)at >= _end)
        return -1;
    for (int i = 0; i < file->e_phnum; i++)
        if (headers[i].p_type == PT_GNU_EH_FRAME) {
            found->dlfo_flags = 0;
            found->dlfo_map_start = (void *)(uintptr_t)__ehdr_start;
            found->dlfo_map_end = (void *)(uintptr_t)_end;
            found->dlfo_link_map = NULL;
            found->dlfo_eh_frame = (void *)headers[i].p_vaddr;
            return 0;
        }
    return -1;
}
#endif
