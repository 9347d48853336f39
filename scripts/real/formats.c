/* printf and its relations: the tables, the jumps by distance and the arithmetic of a C library. */
#include <inttypes.h>
#include <limits.h>
#include <math.h>
#include <stdarg.h>
#include <stddef.h>
#include <stdint.h>
#include <stdio.h>
#include <stdlib.h>
#include <string.h>

static int said(const char *format, ...) {
    char line[200];
    va_list rest;
    va_start(rest, format);
    int length = vsnprintf(line, sizeof line, format, rest);
    va_end(rest);
    printf("%3d <%s>\n", length, line);
    return length;
}

static const char *name(int n) {
    switch (n) {
    case 0: return "nought";
    case 1: return "one";
    case 2: return "two";
    case 3: return "three";
    case 4: return "four";
    case 5: return "five";
    case 6: return "six";
    case 7: return "seven";
    default: return "many";
    }
}

int main(void) {
    int total = 0;
    for (int i = 0; i < 9; i++)
        total += said("%d is %s", i, name(i));
    total += said("[%5d] [%-5d] [%05d] [%+d] [% d] [%.3d]", 42, 42, 42, 42, 42, 7);
    total += said("%x %X %#x %o %#o %u", 48879u, 48879u, 48879u, 64u, 64u, UINT_MAX);
    total += said("%hhd %hd %d %ld %lld", (signed char)-1, (short)-2, INT_MIN, LONG_MIN, LLONG_MAX);
    total += said("%" PRIu64 " %" PRIx64 " %zu %td %jd", UINT64_MAX, (uint64_t)1 << 63, sizeof total, (ptrdiff_t)-5, (intmax_t)9);
    total += said("%c%c%c [%s] [%10s] [%-10s] [%.2s] %%", 'a', 'b', 'c', "text", "right", "left", "cut");
    total += said("%f %.2f %8.3f %-8.1f| %+.0f", 3.14159265358979, 2.5, -1.0625, 9.95, 1e6);
    total += said("%e %.10e %E", 12345.678, 6.02214076e23, 1e-300);
    total += said("%g %g %g %g %G", 0.0001, 0.00001, 123456.0, 1234567.0, 1e100);
    total += said("%f %f %g", HUGE_VAL, -HUGE_VAL, -0.0);
    total += said("%.17g %.17g %.17g", 0.1, 1.0 / 3.0, 2.2250738585072014e-308);
    total += said("[%*d] [%-*d] [%.*f]", 6, 1, 6, 2, 3, 1.23456);

    int a, b, used;
    char word[20];
    double real;
    int taken = sscanf("17 -0x2a text 6.5e3 rest", "%d %i %19s %lf%n", &a, &b, word, &real, &used);
    total += said("%d: %d %d %s %g, %d characters", taken, a, b, word, real, used);
    char *rest;
    double third = strtod("1.5e-3xyz", &rest);
    long hex = strtol("ff", NULL, 16);
    total += said("%g %s %ld %d", third, rest, hex, atoi("-12"));
    total += said("%.12f %.12f %.12f", sqrt(2.0), sin(1.0), pow(2.0, 0.5) * exp(0.0));
    printf("%d characters\n", total);
    puts("end of formats");
    return 0;
}
