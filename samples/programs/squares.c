// A program without a library: it sorts numbers, takes a checksum and a square root, writes what it found and
// ends with status 29. Stores to memory go through pointers that the compiler can't see through, so that no
// relocation of a store is left.
typedef unsigned long word;
typedef unsigned char byte;

#define HIDDEN(pointer) __asm__("" : "+r"(pointer))

const char heading[] = "sorted:";
const char sum_name[] = "checksum:";
const char root_name[] = "root:";
const char end_line[] = "\n";
static const short numbers[] = { 907, -12, 44, 0, 31000, -31000, 5, 44, 6, -1, 812, 77 };

short sorted[12] = { 1 };
word calls;
static char line[128];
static word used;

static long system_call(long number, long a, long b, long c) {
    register long a7 __asm__("a7") = number;
    register long a0 __asm__("a0") = a;
    register long a1 __asm__("a1") = b;
    register long a2 __asm__("a2") = c;
    __asm__ volatile("ecall" : "+r"(a0) : "r"(a7), "r"(a1), "r"(a2) : "memory");
    return a0;
}

static void put_byte(char c) {
    char *to = line;
    word *count = &used;
    HIDDEN(to);
    HIDDEN(count);
    to[(*count)++] = c;
}

__attribute__((noinline)) static void put_text(const char *text) {
    word *count = &calls;
    HIDDEN(count);
    ++*count;
    while (*text) put_byte(*text++);
}

__attribute__((noinline)) static void put_number(long n) {
    char digits[20];
    int length = 0;
    word left = n < 0 ? 0 - (word)n : (word)n;
    put_byte(' ');
    if (n < 0) put_byte('-');
    do digits[length++] = (char)('0' + left % 10); while (left /= 10);
    while (length) put_byte(digits[--length]);
}

__attribute__((noinline)) static void put_line(void) {
    word *count = &used;
    HIDDEN(count);
    put_text(end_line);
    system_call(64, 1, (long)line, (long)*count);
    *count = 0;
}

__attribute__((noinline)) void sort(short *list, int length) {
    for (int i = 1; i < length; i++) {
        short taken = list[i];
        int j = i;
        for (; j > 0 && list[j - 1] > taken; j--) list[j] = list[j - 1];
        list[j] = taken;
    }
}

__attribute__((noinline)) word checksum(const byte *bytes, word length) {
    word sum = 0xcbf29ce484222325;
    for (word i = 0; i < length; i++) sum = (sum ^ bytes[i]) * 0x100000001b3;
    return sum;
}

__attribute__((noinline)) double root(double square) {
    double guess = square;
    for (int i = 0; i < 40; i++) guess = (guess + square / guess) / 2;
    return guess;
}

void (*const steps[])(void) = { put_line };

__attribute__((noreturn)) void _start(void) {
    short *list = sorted;
    word *count = &calls;
    HIDDEN(list);
    HIDDEN(count);
    for (int i = 0; i < 12; i++) list[i] = numbers[i];
    sort(list, 12);
    put_text(heading);
    for (int i = 0; i < 12; i++) put_number(list[i]);
    steps[0]();
    put_text(sum_name);
    put_number((long)(checksum((const byte *)list, sizeof sorted) % 1000003));
    put_line();
    put_text(root_name);
    put_number((long)(root(1522756.0) + 0.5));
    put_line();
    system_call(93, (long)(*count + 23), 0, 0);
    __builtin_unreachable();
}
