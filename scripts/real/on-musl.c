/* What the C++ library of GCC 14 asks of glibc, for which it was made, and musl does not have. */
#define _GNU_SOURCE
#include <dlfcn.h>
#include <link.h>
#include <stdint.h>
#include <stdio.h>
#include <stdlib.h>
#include <string.h>
#include <sys/random.h>

char __libc_single_threaded; /* there may be several threads */

long __isoc23_strtol(const char *text, char **end, int base) { return strtol(text, end, base); }
unsigned long __isoc23_strtoul(const char *text, char **end, int base) { return strtoul(text, end, base); }
int fseeko64(FILE *file, off64_t offset, int from) { return fseeko(file, offset, from); }
off64_t ftello64(FILE *file) { return ftello(file); }

/* musl's own is POSIX's, which gives a number */
char *strerror_r(int number, char *room, size_t size) {
    (void)room;
    (void)size;
    return strerror(number);
}

uint32_t arc4random(void) {
    uint32_t number;
    if (getentropy(&number, sizeof number) != 0)
        abort();
    return number;
}

/* The table of unwind records of the object that has an address: its program header GNU_EH_FRAME */
struct asked {
    uintptr_t at;
    struct dl_find_object *found;
};

static int has(struct dl_phdr_info *info, size_t size, void *data) {
    const struct asked *asked = data;
    const ElfW(Phdr) *records = NULL;
    int is_there = 0;
    (void)size;
    for (int i = 0; i < info->dlpi_phnum; i++) {
        const ElfW(Phdr) *header = &info->dlpi_phdr[i];
        if (header->p_type == PT_GNU_EH_FRAME)
            records = header;
        if (header->p_type == PT_LOAD && asked->at - info->dlpi_addr - header->p_vaddr < header->p_memsz)
            is_there = 1;
    }
    if (!is_there || records == NULL)
        return 0;
    asked->found->dlfo_eh_frame = (void *)(info->dlpi_addr + records->p_vaddr);
    return 1;
}

int _dl_find_object(void *at, struct dl_find_object *found) {
    struct asked asked = { (uintptr_t)at, found };
    return dl_iterate_phdr(has, &asked) == 1 ? 0 : -1;
}
