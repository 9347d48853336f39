/* The start of a program that has no start file of a system: it takes the place of a C library's crt0 and asks for no linker script.
 * It sets the global pointer, copies the first values of thread-local variables into a block of its own and points tp there, calls the
 * constructors, and calls main with the words that the loader left on the stack. The loader has cleared .bss.
 * All that it needs of the linker are the names that it declares below. */
#include <stdint.h>

typedef void call(void);
extern const unsigned char __ehdr_start[]; /* the file header, which stands in memory before the program headers */
extern call *const __preinit_array_start[], *const __preinit_array_end[];
extern call *const __init_array_start[], *const __init_array_end[];

int main(int count, char **words);
long ask(long number, long a, long b, long c);
_Noreturn void exit(int status);

__asm__(".section .text._start, \"ax\"\n"
        ".p2align 1\n" /* else the section may stand at any address, and its calls are not shortened */
        ".globl _start\n"
        ".type _start, @function\n"
        "_start:\n"
        "    .option push\n"
        "    .option norelax\n" /* gp can't be found by way of gp */
        "    lla gp, __global_pointer$\n"
        "    .option pop\n"
        "    mv a0, sp\n"
        "    andi sp, sp, -16\n"
        "    call start\n"
        ".size _start, . - _start\n"
        ".text\n");

/* A call of the system. It is weak: a machine without a system has one of its own (machine.c). */
__attribute__((weak)) long ask(long number, long a, long b, long c) {
    register long a7 __asm__("a7") = number;
    register long a0 __asm__("a0") = a;
    register long a1 __asm__("a1") = b;
    register long a2 __asm__("a2") = c;
    __asm__ volatile("ecall" : "+r"(a0) : "r"(a1), "r"(a2), "r"(a7) : "memory");
    return a0;
}

enum { TLS = 7, ROOM = 4096, ALIGNMENT = 64 };

/* System V gABI, "Program Header" */
struct program_header {
    uint32_t type, flags;
    uint64_t offset, address, physical, file_size, memory_size, alignment;
};

static unsigned char locals[ROOM] __attribute__((aligned(ALIGNMENT)));

/* The thread-local block (psABI, "Thread Local Storage": tp points at its first byte) of the one thread. */
static void set_locals(void) {
    uint64_t at = *(const uint64_t *)(__ehdr_start + 32);
    unsigned size = *(const uint16_t *)(__ehdr_start + 54), count = *(const uint16_t *)(__ehdr_start + 56);
    for (unsigned i = 0; i < count; i++) {
        const struct program_header *header = (const void *)(__ehdr_start + at + i * size);
        if (header->type != TLS)
            continue;
        if (header->memory_size > ROOM || header->alignment > ALIGNMENT)
            __builtin_trap();
        const volatile unsigned char *first = (const void *)header->address; /* volatile: no call of memcpy, which may need tp */
        for (uint64_t j = 0; j < header->file_size; j++)
            locals[j] = first[j];
    }
    __asm__ volatile("mv tp, %0" : : "r"(locals) : "memory");
}

_Noreturn __attribute__((used)) void start(long *stack) {
    set_locals();
    for (call *const *each = __preinit_array_start; each != __preinit_array_end; each++)
        (*each)();
    for (call *const *each = __init_array_start; each != __init_array_end; each++)
        (*each)();
    exit(main((int)stack[0], (char **)(stack + 1)));
}
