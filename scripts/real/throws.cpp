// C++ that throws and catches, for which the program has to have unwind tables.
#include <cstdio>

static void thrown(int n) {
    if (n > 1)
        throw n;
}

int main(int count, char **) {
    try {
        thrown(41 + count);
    } catch (int n) {
        std::printf("caught %d\n", n);
    }
    std::puts("end of throws");
}
