/* The start of a program on a machine without a system: `virt` of qemu-system-riscv64, whose memory starts at 0x80000000, with a 16550 UART for
 * what is written and a device that ends the run. A program of start.c runs there too where it is linked with this file and `-e machine`:
 * for what it asks of a system, this file has an `ask` of its own.
 *
 * rvld places a program from 0x10000 on, where this machine has no memory. So its image is loaded as it stands to 0x80000000 and
 * further; the code below, which is at first run there, maps the addresses of the program to it (RISC-V privileged architecture,
 * "Sv39") and goes on in supervisor mode. Code before that may use no address but those that it finds by its own (-mcmodel=medany). */
#include <stdint.h>

void machine_go(void);
void _start(void);
extern uint64_t __bss_start[], _end[];

enum { IMAGE = 0x10000, PAGE = 4096, ENTRIES = 512, WORDS = 3 };
#define MEMORY 0x80000000ul  /* where the image is loaded */
#define DEVICES 0x40000000ul /* where the program sees the devices, which are in the first gigabyte */
#define UART ((volatile uint8_t *)(DEVICES + 0x10000000))
#define FINISHER ((volatile uint32_t *)(DEVICES + 0x100000))

/* A page table entry for what is at the address: a table, memory for everything, or devices to be read and written. */
enum { TABLE = 1, ANYTHING = 0xcf, DEVICE = 0xc7 };
#define ENTRY(address, bits) ((uint64_t)(address) >> 12 << 10 | (bits))

/* The stack, and above it the words for main, where start.c looks for what a system leaves there. */
struct {
    unsigned char stack[32768];
    long count;
    const char *words[WORDS + 1];
} machine_room __attribute__((aligned(16)));

__asm__(".section .text.machine, \"ax\"\n"
        ".p2align 1\n"
        ".globl machine\n"
        ".type machine, @function\n"
        "machine:\n"
        "    .option push\n"
        "    .option norelax\n"
        "    lla t0, __bss_start\n" /* the image has no bytes for .bss, and nothing has cleared it */
        "    lla t1, _end\n"
        "1:  bgeu t0, t1, 2f\n"
        "    sb zero, (t0)\n"
        "    addi t0, t0, 1\n"
        "    j 1b\n"
        "2:  lla sp, machine_room + 32768\n"
        "    call machine_tables\n"
        "    csrw satp, a0\n"
        "    sfence.vma\n"
        "    li t0, -1\n" /* supervisor mode may use all memory */
        "    csrw pmpaddr0, t0\n"
        "    li t0, 31\n"
        "    csrw pmpcfg0, t0\n"
        "    li t0, 0x1800\n" /* mstatus.MPP: supervisor mode is next; FS: floating point is there */
        "    csrc mstatus, t0\n"
        "    li t0, 0x2800\n"
        "    csrs mstatus, t0\n"
        "    lla t0, 3f\n"
        "    li t1, 0x80000000 - 0x10000\n"
        "    sub t0, t0, t1\n"
        "    csrw mepc, t0\n"
        "    mret\n"
        "3:  lla sp, machine_room + 32768\n" /* from here on the program is where it was linked */
        "    call machine_go\n"
        "    .option pop\n"
        ".size machine, . - machine\n"
        ".text\n");

static uint64_t upper[ENTRIES] __attribute__((aligned(PAGE)));
static uint64_t middle[ENTRIES] __attribute__((aligned(PAGE)));
static uint64_t lower[ENTRIES] __attribute__((aligned(PAGE)));

/* The translation of the first 2 MB, which hold the program, its heap and its stack, and of the devices. Gives the word for satp. */
__attribute__((used)) uint64_t machine_tables(void) {
    for (uint64_t i = IMAGE / PAGE; i < ENTRIES; i++)
        lower[i] = ENTRY(MEMORY - IMAGE + i * PAGE, ANYTHING);
    middle[0] = ENTRY(lower, TABLE);
    upper[0] = ENTRY(middle, TABLE);
    upper[DEVICES >> 30] = ENTRY(0, DEVICE);
    return (uint64_t)8 << 60 | (uint64_t)upper >> 12;
}

__attribute__((used)) void machine_go(void) {
    static const char *const words[WORDS] = { "machine", "one", "two words" };
    machine_room.count = WORDS;
    for (int i = 0; i < WORDS; i++)
        machine_room.words[i] = words[i];
    __asm__ volatile("mv sp, %0\n j _start" : : "r"(&machine_room.count) : "memory");
    __builtin_unreachable();
}

static void put(char c) {
    while ((UART[5] & 0x20) == 0)
        ;
    UART[0] = (uint8_t)c;
}

/* What the programs here ask of a system: output, the end, and memory. */
long ask(long number, long a, long b, long c) {
    static uint64_t top;
    switch (number) {
    case 64: /* write */
        for (long i = 0; i < c; i++)
            put(((const char *)b)[i]);
        return c;
    case 93: /* exit */
        *FINISHER = a == 0 ? 0x5555 : (uint32_t)a << 16 | 0x3333;
        for (;;)
            ;
    case 214: /* brk */
        if (top == 0)
            top = (uint64_t)_end;
        if ((uint64_t)a >= (uint64_t)_end && (uint64_t)a < ENTRIES * PAGE)
            top = (uint64_t)a;
        return (long)top;
    default:
        return -38; /* not there */
    }
}
