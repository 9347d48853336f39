// Templates whose instances have equal code for types of one size, and functions that call each other or themselves in equal ways.
typedef unsigned long word;

void put_text(const char *text);
void put_number(const char *what, long n);
[[noreturn]] void leave(long status);

template <class T> struct list {
    T items[16];
    word count = 0;
    __attribute__((noinline)) void add(T item) { if (count < 16) items[count++] = item; }
    __attribute__((noinline)) T greatest() const {
        T most = items[0];
        for (word at = 1; at < count; at++) if (items[at] > most) most = items[at];
        return most;
    }
    __attribute__((noinline)) long place_of(T item) const {
        for (word at = 0; at < count; at++) if (items[at] == item) return (long)at;
        return -1;
    }
};

// two that call each other, and one that calls itself
template <class T> long odd(T n);
template <class T> __attribute__((noinline)) long even(T n) { return n == 0 ? 1 : odd<T>(n - 1); }
template <class T> __attribute__((noinline)) long odd(T n) { return n == 0 ? 0 : even<T>(n - 1); }
template <class T> __attribute__((noinline)) long sum_to(T n) { long rest = n == 0 ? 0 : sum_to<T>(n - 1); __asm__("" : "+r"(rest)); return rest + (long)n; }

// the same text for each
template <class T> __attribute__((noinline)) const char *named(T n) { return n ? "something" : "nothing"; }

// a class with virtual functions
struct shape { virtual long corners() const = 0; virtual long sides() const { return corners(); } };
struct square : shape { long corners() const override { return 4; } };
struct table : shape { long corners() const override { return 4; } };
struct star : shape { long corners() const override { return 10; } };

long first_half();
long second_half();
long numbered(long n);
