// Exceptions of constructors and destructors: what was made before is taken apart, in the opposite order, and nothing else is.
#include <cstdio>
#include <cstdlib>
#include <memory>
#include <new>
#include <stdexcept>
#include <vector>

static int made, taken_apart, fails_at = -1;

struct Part {
    int number;
    explicit Part(int n = 0) : number(n) {
        if (made == fails_at) {
            std::printf("  part %d fails\n", made);
            throw std::runtime_error("part");
        }
        made++;
    }
    Part(const Part &other) : Part(other.number) {}
    virtual ~Part() { taken_apart++; }
};

struct First : virtual Part {
    Part own;
    First() : Part(1), own(2) {}
};
struct Second : virtual Part {
    Part own[3];
    Second() : Part(1), own{Part(3), Part(4), Part(5)} {}
};
struct Whole : First, Second {
    std::unique_ptr<Part> held;
    std::vector<Part> list;
    Part last;
    Whole() : Part(1), held(new Part(6)), list(4, Part(7)), last(8) {}
    explicit Whole(int n) : Whole() {
        Part more(n);
        if (n > 0)
            throw n;
    }
};
struct Guarded {
    Part part;
    explicit Guarded(bool *seen) try : part(9) {
        made++;
        taken_apart++;
    } catch (const std::runtime_error &) {
        *seen = true;
    }
};

static long allocated;
__attribute__((noinline)) void *operator new(std::size_t size) {
    void *room = std::malloc(size);
    if (room == nullptr)
        throw std::bad_alloc();
    allocated++;
    return room;
}
__attribute__((noinline)) void operator delete(void *room) noexcept {
    if (room != nullptr)
        allocated--;
    std::free(room);
}
__attribute__((noinline)) void operator delete(void *room, std::size_t) noexcept { operator delete(room); }

struct Parting {
    int n;
    ~Parting() noexcept(false) {
        if (n == 2)
            throw n;
    }
};

// made before main and taken apart after it
struct Early {
    int caught;
    Early() : caught(0) {
        try {
            throw 30;
        } catch (int n) {
            caught = n;
        }
    }
    ~Early() {
        try {
            throw std::runtime_error("after main");
        } catch (const std::exception &error) {
            std::printf("early: %d, then %s\n", caught, error.what());
            std::puts("end of makes");
        }
    }
};
static Early early;

static int tries;
static int lazily() {
    static Part part = [] {
        if (++tries < 3)
            throw tries;
        return Part(10);
    }();
    return part.number;
}

struct Own {
    int n;
    Own() : n(7) {
        if (++tries < 5)
            throw 1.5;
    }
};
static Own &own() {
    static thread_local Own one;
    return one;
}

int main() {
    for (fails_at = 0;; fails_at++) {
        made = taken_apart = 0;
        long before = allocated;
        bool is_caught = false;
        try {
            Whole whole;
        } catch (const std::runtime_error &) {
            is_caught = true;
        }
        if (made != taken_apart || allocated != before)
            std::printf("%d made, %d taken apart, %ld kept\n", made, taken_apart, allocated - before);
        if (!is_caught)
            break;
    }
    std::printf("whole: %d parts\n", made);
    fails_at = -1;
    for (int n = 0; n < 2; n++) {
        made = taken_apart = 0;
        try {
            Whole whole(n);
            std::printf("whole %d stands\n", n);
        } catch (int number) {
            std::printf("whole %d does not stand: %d\n", n, number);
        }
        std::printf("%d made, %d taken apart\n", made, taken_apart);
    }
    for (fails_at = 0; fails_at <= 5; fails_at += 5) {
        made = taken_apart = 0;
        long before = allocated;
        try {
            Part *list = new Part[9];
            delete[] list;
        } catch (const std::runtime_error &) {
        }
        std::printf("array: %d made, %d taken apart, %ld kept\n", made, taken_apart, allocated - before);
    }
    for (int i = 0; i < 2; i++) {
        made = taken_apart = 0;
        fails_at = i - 1;
        bool is_seen = false;
        try {
            Guarded guarded(&is_seen);
        } catch (const std::runtime_error &) {
        }
        std::printf("guarded: %s, %d made, %d taken apart\n", is_seen ? "seen" : "not seen", made, taken_apart);
    }
    fails_at = -1;
    try {
        Parting list[] = {{0}, {1}, {2}, {3}, {4}};
    } catch (int n) {
        std::printf("parting: %d\n", n);
    }
    for (int i = 0; i < 4; i++)
        try {
            int number = lazily();
            std::printf("lazily: %d after %d tries\n", number, tries);
        } catch (int n) {
            std::printf("lazily: not at try %d\n", n);
        }
    for (int i = 0; i < 3; i++)
        try {
            std::printf("own: %d\n", own().n);
        } catch (double) {
            std::printf("own: not at try %d\n", tries);
        }
    std::printf("allocated and not freed: %ld\n", allocated);
}
