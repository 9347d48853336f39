#include "many.h"

static char line[512];
static word used;

static void put(char c) {
    char *to = line;
    word *count = &used;
    HIDDEN(to);
    HIDDEN(count);
    if (*count == sizeof line) flush();
    to[(*count)++] = c;
}

void put_text(const char *text) {
    while (*text) put(*text++);
}

void put_number(long n) {
    char digits[64];
    int length = 0;
    word left = n < 0 ? 0 - (word)n : (word)n;
    word base = base_of();
    if (n < 0) put('-');
    do digits[length++] = (char)(left % base < 10 ? '0' + left % base : 'a' + left % base - 10); while (left /= base);
    while (length) put(digits[--length]);
}

void flush(void) {
    word *count = &used;
    HIDDEN(count);
    register long number __asm__("a7") = 64;
    register long stream __asm__("a0") = 1;
    register const char *from __asm__("a1") = line;
    register word length __asm__("a2") = *count;
    __asm__ volatile("ecall" : "+r"(stream) : "r"(number), "r"(from), "r"(length) : "memory");
    *count = 0;
}
