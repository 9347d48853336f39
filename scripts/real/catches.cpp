// C++ that throws, catches and throws again: by value, by reference, by a base, out of handlers and destructors, through frames of C with
// cleanups (cleanups.c), through frames of all sizes, and while other exceptions are on their way.
#include <cstdio>
#include <cstdlib>
#include <cstring>
#include <exception>
#include <stdexcept>
#include <string>

extern "C" {
typedef void call(int);
void through(call *next, int n);
void through_wide(call *next, int n);
void through_deep(call *next, int n);
int now_held();
}

struct Base {
    int n;
    explicit Base(int number) : n(number) {}
    Base(const Base &other) : n(other.n) { copies++; }
    virtual const char *name() const { return "base"; }
    virtual ~Base() {}
    static int copies;
};
int Base::copies;
struct Left : virtual Base {
    explicit Left(int number) : Base(number) {}
    const char *name() const override { return "left"; }
};
struct Right : virtual Base {
    explicit Right(int number) : Base(number) {}
    const char *name() const override { return "right"; }
};
struct Both : Left, Right {
    explicit Both(int number) : Base(number), Left(number), Right(number) {}
    const char *name() const override { return "both"; }
};
struct alignas(16) Wide {
    long double number;
    char text[1000];
};

struct Note {
    const char *name;
    int before;
    explicit Note(const char *text) : name(text), before(std::uncaught_exceptions()) {}
    ~Note() { std::printf("  leaves %s, %d on the way\n", name, std::uncaught_exceptions() - before); }
};

__attribute__((noinline)) static void thrown(int n) {
    Note note("thrown");
    switch (n) {
    case 1: throw 17;
    case 2: throw 2.5;
    case 3: throw "a text";
    case 4: throw Base(4);
    case 5: throw Left(5);
    case 6: throw Both(6);
    case 7: throw std::string(200, 'x');
    case 8: throw nullptr;
    case 9: {
        Wide wide = {};
        wide.number = 9.25L;
        std::strcpy(wide.text, "wide");
        throw wide;
    }
    case 10: {
        static Both there(10);
        throw static_cast<Base *>(&there);
    }
    case 11: throw std::out_of_range("a range");
    default: return;
    }
}

__attribute__((noinline)) static void caught(call *by, int n) {
    try {
        Note note("caught");
        by(n);
        std::printf("%d: nothing\n", n);
    } catch (int number) {
        std::printf("%d: int %d\n", n, number);
    } catch (double number) {
        std::printf("%d: double %.1f\n", n, number);
    } catch (const char *text) {
        std::printf("%d: %s\n", n, text == nullptr ? "no text" : text);
    } catch (const Right &right) {
        std::printf("%d: right, which is %s %d\n", n, right.name(), right.n);
    } catch (Base &base) {
        std::printf("%d: base, which is %s %d\n", n, base.name(), base.n);
    } catch (const Base *base) {
        std::printf("%d: at a base, which is %s %d\n", n, base->name(), base->n);
    } catch (const std::string &text) {
        std::printf("%d: %zu of %c\n", n, text.size(), text[0]);
    } catch (const Wide &wide) {
        std::printf("%d: %s %.2Lf%s\n", n, wide.text, wide.number, reinterpret_cast<unsigned long>(&wide) % 16 != 0 ? ", at an odd place" : "");
    } catch (...) {
        std::printf("%d: another\n", n);
        try {
            throw;
        } catch (const std::logic_error &error) {
            std::printf("  %s\n", error.what());
        }
    }
}

static void by_c(int n) { through(thrown, n); }
static void by_wide(int n) { through_wide(thrown, n); }

// what is thrown again is the same object; a handler's own exception takes its place
static void again() {
    Base::copies = 0;
    for (int round = 0; round < 3; round++) {
        try {
            try {
                try {
                    throw Both(round);
                } catch (Left &left) {
                    left.n += 100;
                    throw;
                }
            } catch (Right &right) {
                right.n += 1000;
                if (round == 1)
                    throw right.n;
                if (round == 2)
                    throw std::runtime_error("in its place");
                throw;
            }
        } catch (const Base &base) {
            std::printf("again: %s %d, copied %d times\n", base.name(), base.n, Base::copies);
        } catch (int number) {
            std::printf("again: %d\n", number);
        } catch (const std::exception &error) {
            std::printf("again: %s\n", error.what());
        }
    }
}

// exceptions that begin and end in destructors while another is on its way
struct Deep {
    int n;
    ~Deep() {
        try {
            Deep *deeper = n > 0 ? new Deep{n - 1} : nullptr;
            if (deeper == nullptr)
                throw n;
            delete deeper;
            throw n;
        } catch (int number) {
            std::printf("  deep %d, %d on the way\n", number, std::uncaught_exceptions());
        }
    }
};

// a destructor that lets one out
struct Loud {
    ~Loud() noexcept(false) {
        if (std::uncaught_exceptions() == 0)
            throw std::runtime_error("loud");
        std::puts("  loud, but not now");
    }
};

// kept, and thrown anew after all handlers are left
static std::exception_ptr kept;
static void keep() {
    try {
        thrown(6);
    } catch (...) {
        kept = std::current_exception();
    }
}
static void told(const std::exception &error, int level = 0) {
    std::printf("  %*s%s\n", level, "", error.what());
    try {
        std::rethrow_if_nested(error);
    } catch (const std::exception &inner) {
        told(inner, level + 1);
    }
}
static void nested(int n) {
    try {
        if (n == 0)
            throw std::logic_error("innermost");
        nested(n - 1);
    } catch (...) {
        std::throw_with_nested(std::runtime_error("level " + std::to_string(n)));
    }
}

// frames that grow by what is not known before, with floating point kept across calls
__attribute__((noinline)) static double grown(int n, double sum) {
    volatile char *room = static_cast<volatile char *>(__builtin_alloca(static_cast<unsigned long>(n) * 37 + 16));
    room[n] = static_cast<char>(n);
    double half = sum / 2;
    try {
        if (n == 0)
            throw sum;
        return grown(n - 1, sum + 1) + half;
    } catch (double reached) {
        if (n % 10 != 0)
            throw;
        if (n == 30)
            return reached + half + room[n];
        throw reached + half + room[n];
    }
}

static int tried() try {
    throw 5;
} catch (int n) {
    return n + 1;
}

int main() {
    call *const ways[] = {thrown, by_c, by_wide};
    for (call *way : ways)
        for (int n = 0; n <= 11; n++)
            caught(way, n);
    try {
        through_deep(thrown, 1049);
        std::puts("nothing is thrown of 1000");
    } catch (...) {
        std::puts("not here");
    }
    try {
        through_deep([](int n) { throw n; }, 1005);
    } catch (int n) {
        std::printf("through all of C: %d, it holds %d\n", n, now_held());
    }
    again();
    try {
        Deep deep{3};
        throw 2.5;
    } catch (double) {
        std::puts("deep: caught");
    }
    try {
        Loud loud;
    } catch (const std::exception &error) {
        std::printf("%s: caught\n", error.what());
    }
    try {
        Loud loud;
        throw 3;
    } catch (int n) {
        std::printf("loud: caught %d\n", n);
    }
    keep();
    for (int i = 0; i < 2; i++)
        try {
            std::rethrow_exception(kept);
        } catch (Left &left) {
            std::printf("kept: %s %d\n", left.name(), left.n);
            left.n++;
        }
    kept = nullptr;
    try {
        nested(3);
    } catch (const std::exception &error) {
        std::puts("nested:");
        told(error);
    }
    std::printf("grown: %.3f\n", grown(95, 0.5));
    std::printf("tried: %d\n", tried());
    long sum = 0;
    for (int i = 0; i < 20000; i++)
        try {
            if (i % 3 == 0)
                throw i;
            if (i % 3 == 1)
                throw static_cast<long>(i);
            throw Base(i);
        } catch (int n) {
            sum += n;
        } catch (long n) {
            sum -= n;
        } catch (const Base &base) {
            sum += 2 * base.n;
        }
    std::printf("20000 times: %ld, %d on the way\n", sum, std::uncaught_exceptions());
    std::puts("end of catches");
}
