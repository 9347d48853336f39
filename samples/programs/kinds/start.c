// What comes before and after the program: the global pointer, the block of thread-local data, the arrays of functions, and the system's calls.
#include "kinds.h"

__asm__(".text\n.globl _start\n.type _start, @function\n_start:\n"
        ".option push\n.option norelax\n1: auipc gp, %pcrel_hi(__global_pointer$)\naddi gp, gp, %pcrel_lo(1b)\n.option pop\n"
        "andi sp, sp, -16\ncall begin\n.size _start, . - _start\n");

extern const byte __ehdr_start[];
typedef void action(void);
extern action *const __preinit_array_start[], *const __preinit_array_end[];
extern action *const __init_array_start[], *const __init_array_end[];
extern action *const __fini_array_start[], *const __fini_array_end[];
extern byte __bss_start[], _end[], _edata[], _etext[];

static byte block[1024] __attribute__((aligned(64)));

static word number(const byte *at, int size) {
    word n = 0;
    while (size--) n = n << 8 | at[size];
    return n;
}

static void begin_thread(void) {
    const byte *header = __ehdr_start + number(__ehdr_start + 32, 8);
    for (word left = number(__ehdr_start + 56, 2); left--; header += 56)
        if (number(header, 4) == 7) {
            const byte *from = (const byte *)number(header + 16, 8);
            for (word size = number(header + 32, 8), at = 0; at < size; at++) ((volatile byte *)block)[at] = from[at];
        }
    __asm__ volatile("mv tp, %0" : : "r"(block) : "memory");
}

// general dynamic: the entry's words are a module's number and an offset less 0x800
void *__tls_get_addr(word *entry) {
    byte *thread;
    __asm__ volatile("mv %0, tp" : "=r"(thread));
    return thread + entry[1] + 0x800;
}

static void all(action *const *from, action *const *to) {
    while (from != to) (*from++)();
}

__attribute__((noreturn)) void begin(void);
void begin(void) {
    begin_thread();
    all(__preinit_array_start, __preinit_array_end);
    all(__init_array_start, __init_array_end);
    long status = main();
    put_text(&_etext[0] > (byte *)begin && &__bss_start[0] >= &_edata[0] && &_end[0] > block ? "ends: in order\n" : "ends: not in order\n");
    for (action *const *last = __fini_array_end; last != __fini_array_start;) (*--last)();
    leave(status);
}

static long system_call(long n, long a, long b, long c) {
    register long number __asm__("a7") = n;
    register long first __asm__("a0") = a;
    register long second __asm__("a1") = b;
    register long third __asm__("a2") = c;
    __asm__ volatile("ecall" : "+r"(first) : "r"(number), "r"(second), "r"(third) : "memory");
    return first;
}

void leave(long status) {
    for (;;) system_call(93, status, 0, 0);
}

void put_text(const char *text) {
    long length = 0;
    while (text[length]) length++;
    system_call(64, 1, (long)text, length);
}

void put_number(const char *what, long n) {
    char digits[24];
    int at = sizeof digits;
    word left = n < 0 ? 0 - (word)n : (word)n;
    digits[--at] = 0;
    digits[--at] = '\n';
    do digits[--at] = (char)('0' + left % 10); while (left /= 10);
    if (n < 0) digits[--at] = '-';
    put_text(what);
    put_text(": ");
    put_text(digits + at);
}

void *memset(void *to, int value, word count) {
    for (volatile byte *at = to; count--;) *at++ = (byte)value;
    return to;
}

void *memcpy(void *to, const void *from, word count) {
    const byte *next = from;
    for (volatile byte *at = to; count--;) *at++ = *next++;
    return to;
}
