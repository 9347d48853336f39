#include "many.h"

__attribute__((noreturn)) void leave(long status) {
    register long number __asm__("a7") = 93;
    register long given __asm__("a0") = status;
    __asm__ volatile("ecall" : : "r"(number), "r"(given) : "memory");
    __builtin_unreachable();
}
