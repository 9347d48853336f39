// C++ without exceptions, type information and a library: constructors in order, templates and inline functions in COMDAT groups, virtual
// functions, inline and thread-local variables. scripts/real/start.c starts it.
#include <stddef.h>
#include <stdint.h>

typedef void call(void);
extern "C" {
long ask(long number, long a, long b, long c); // start.c's
extern call *const __fini_array_start[], *const __fini_array_end[];
[[noreturn]] void exit(int status) {
    for (call *const *each = __fini_array_end; each != __fini_array_start;)
        (*--each)();
    for (;;)
        ask(93, status, 0, 0);
}
int main(int, char **);
// what a class with virtual functions asks for, though nothing is taken from a heap and no pure function is called
void __cxa_pure_virtual() { exit(99); }
int __cxa_atexit(void (*)(void *), void *, void *) { return 0; }
void *__dso_handle;
}
void operator delete(void *) noexcept { exit(98); }
void operator delete(void *, size_t) noexcept { exit(98); }

static void say(const char *text) {
    size_t length = 0;
    while (text[length] != 0)
        length++;
    ask(64, 1, reinterpret_cast<long>(text), static_cast<long>(length));
}

static void say(uint64_t number) {
    char digits[24];
    int at = 23;
    digits[at] = 0;
    do
        digits[--at] = static_cast<char>('0' + number % 10);
    while ((number /= 10) != 0);
    say(digits + at);
}

template <typename A, typename... Rest> void line(A first, Rest... rest) {
    say(first);
    (say(rest), ...);
    say("\n");
}

inline uint64_t made = 0;
inline thread_local uint64_t steps = 100;

struct Cell {
    uint64_t number;
    explicit Cell(uint64_t n) : number(n) { made = made * 10 + n; }
    virtual uint64_t value() const = 0;
    virtual const char *name() const { return "cell"; }
    virtual ~Cell() {}
};

struct Plain : Cell {
    using Cell::Cell;
    uint64_t value() const override { return number; }
};

template <unsigned N> struct Times : Cell {
    using Cell::Cell;
    uint64_t value() const override {
        steps += N;
        return number * N;
    }
    const char *name() const override { return N % 2 != 0 ? "odd" : "even"; }
};

__attribute__((init_priority(300))) static Plain third(3);
__attribute__((init_priority(101))) static Times<5> first(1);
__attribute__((init_priority(200))) static Times<6> second(2);
static Times<7> last(4);

template <typename T, size_t N> T folded(const T (&list)[N], T (*step)(T, T)) {
    T result = list[0];
    for (size_t i = 1; i < N; i++)
        result = step(result, list[i]);
    return result;
}

__attribute__((destructor)) static void leave() { line("left with ", steps, " steps"); say("end of cells\n"); }

int main(int, char **) {
    line("made ", made);
    const Cell *cells[] = {&first, &second, &third, &last};
    uint64_t values[4];
    for (int i = 0; i < 4; i++) {
        values[i] = cells[i]->value();
        line(cells[i]->name(), " ", values[i]);
    }
    uint64_t sum = folded<uint64_t, 4>(values, [](uint64_t a, uint64_t b) { return a + b; });
    uint64_t most = folded<uint64_t, 4>(values, [](uint64_t a, uint64_t b) { return a > b ? a : b; });
    line("sum ", sum, ", greatest ", most);
    return made == 1234 && sum == 48 ? 0 : 1;
}
