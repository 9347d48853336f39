// Fifteen hundred functions with frames, tables of exceptions and cleanups of their own, thrown through in all directions: each has its record, and the
// table of records is searched from end to end. Some are equal but for what they catch, some are equal altogether.
#include <array>
#include <cstdio>
#include <utility>

enum { FUNCTIONS = 500 };

typedef long step(int depth, long seed);
extern const std::array<step *, 3 * FUNCTIONS> steps;

static long balance, leaves;

template <int N> struct Error {
    long value;
};
struct Guard {
    long weight;
    explicit Guard(long w) : weight(w) { balance += w; }
    ~Guard() {
        balance -= weight;
        leaves++;
    }
};

static long next(long seed) { return (seed * 1103515245 + 12345) & 0x3fffffff; }

__attribute__((noinline)) static long onwards(int depth, long seed) { return steps[static_cast<unsigned long>(next(seed) >> 7) % steps.size()](depth - 1, next(seed)); }

__attribute__((noinline, cold)) static void end(long seed) {
    switch (seed >> 11 & 3) {
    case 0: throw Error<0>{seed};
    case 1: throw Error<1>{seed};
    case 2: throw Error<2>{seed};
    default: throw seed;
    }
}

// a frame of a size of its own, and something to clean up
template <int N> long passes(int depth, long seed) {
    volatile signed char room[16 + N % 61 * 16];
    Guard guard(N);
    room[N % 16] = static_cast<signed char>(N);
    if (depth == 0)
        end(seed);
    return onwards(depth, seed) + room[N % 16];
}

// catches one kind of three
template <int N> long catches(int depth, long seed) {
    Guard guard(1);
    try {
        if (depth == 0)
            end(seed);
        return onwards(depth, seed);
    } catch (const Error<N % 3> &error) {
        if (N % 7 == 0)
            throw;
        return error.value % 1000 + N;
    }
}

// all of these have equal code
template <int N> long returns(int depth, long seed) {
    Guard guard(2);
    if (depth == 0)
        end(seed);
    return onwards(depth, seed) - 1;
}

template <int... N> constexpr std::array<step *, 3 * FUNCTIONS> all(std::integer_sequence<int, N...>) { return {passes<N>..., catches<N>..., returns<N>...}; }
const std::array<step *, 3 * FUNCTIONS> steps = all(std::make_integer_sequence<int, FUNCTIONS>());

int main() {
    long sum = 0, kinds[5] = {};
    unsigned long number = 0;
    for (step *each : steps) {
        long seed = next(static_cast<long>(++number) * 7919);
        try {
            sum += each(static_cast<int>(number % 24), seed);
            kinds[4]++;
        } catch (const Error<0> &error) {
            sum ^= error.value;
            kinds[0]++;
        } catch (const Error<1> &error) {
            sum ^= error.value << 1;
            kinds[1]++;
        } catch (const Error<2> &error) {
            sum ^= error.value << 2;
            kinds[2]++;
        } catch (long value) {
            sum ^= value << 3;
            kinds[3]++;
        }
        if (balance != 0)
            std::printf("after function %lu the balance is %ld\n", number, balance);
    }
    std::printf("%ld, %ld, %ld, %ld and %ld; %ld left; sum %lx\n", kinds[0], kinds[1], kinds[2], kinds[3], kinds[4], leaves, sum);
    std::puts("end of many");
}
