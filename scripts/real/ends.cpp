// How a program ends whose exceptions nobody catches: the word says which. scripts/tests/exceptions.sh runs it with each of them.
#include <csignal>
#include <cstdio>
#include <cstdlib>
#include <cstring>
#include <exception>
#include <thread>
#include <unistd.h>

struct Oops : std::exception {
    const char *what() const noexcept override { return "oops"; }
};
struct Told {
    const char *text;
    ~Told() { std::printf("leaves %s\n", text); }
};

__attribute__((noinline)) static void throws() {
    Told told{"throws"};
    throw Oops();
}
__attribute__((noinline)) static void never() noexcept {
    throws();
}
__attribute__((noinline)) static void throws_if(bool on_the_way) {
    if (on_the_way)
        throw 3;
}
struct Late {
    ~Late() { throws_if(std::uncaught_exceptions() > 0); }
};
[[noreturn]] static void handled() {
    try {
        if (std::current_exception() == nullptr)
            throw 0;
        throw;
    } catch (const Oops &oops) {
        std::printf("ends by %s\n", oops.what());
    } catch (int n) {
        std::printf("ends by %d\n", n);
    }
    std::fflush(stdout);
    _exit(41);
}

int main(int count, char **words) {
    const char *how = count > 1 ? words[1] : "";
    std::setvbuf(stdout, nullptr, _IOLBF, 0);
    if (std::strncmp(how, "own-", 4) == 0) {
        std::set_terminate(handled);
        how += 4;
    }
    if (std::strcmp(how, "uncaught") == 0) {
        throws();
    } else if (std::strcmp(how, "noexcept") == 0) {
        try {
            never();
        } catch (...) {
            std::puts("not here");
        }
    } else if (std::strcmp(how, "destructor") == 0) {
        try {
            Late late;
            throws();
        } catch (...) {
            std::puts("not here");
        }
    } else if (std::strcmp(how, "thread") == 0) {
        std::thread(throws).join();
    } else if (std::strcmp(how, "nothing") == 0) {
        throw;
    } else if (std::strcmp(how, "exit") == 0) {
        std::atexit([] {
            try {
                throws();
            } catch (const Oops &) {
                std::puts("caught at the end");
            }
        });
        try {
            throws();
        } catch (...) {
            std::exit(7);
        }
    }
    std::puts("end of ends");
}
