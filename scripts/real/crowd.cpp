// Exceptions in threads: each on its own stack at the same time, and handed from one thread to another.
#include <atomic>
#include <cstdio>
#include <exception>
#include <future>
#include <mutex>
#include <stdexcept>
#include <string>
#include <system_error>
#include <thread>
#include <vector>

enum { THREADS = 8, STEPS = 60 };

static std::mutex door;
static std::atomic<long> left;
static thread_local long mine = 1;

struct Guard {
    ~Guard() { left++; }
};

__attribute__((noinline)) static void down(int depth, long what) {
    Guard guard;
    std::lock_guard<std::mutex> closed_by(door);
    if (depth == 0)
        throw what;
    door.unlock();
    struct Locked {
        ~Locked() { door.lock(); }
    } locked;
    down(depth - 1, what);
}

static long work(int number) {
    long sum = 0;
    for (int i = 0; i < STEPS; i++)
        try {
            try {
                mine += number;
                down(i % 9, number * 1000 + i);
            } catch (long n) {
                if (n % 2 != 0)
                    throw std::runtime_error(std::to_string(n));
                sum += n;
            }
        } catch (const std::exception &error) {
            sum -= std::stol(error.what());
        }
    return sum + mine + std::uncaught_exceptions();
}

int main() {
    long sums[THREADS] = {};
    std::vector<std::thread> threads;
    for (int i = 0; i < THREADS; i++)
        threads.emplace_back([i, &sums] { sums[i] = work(i + 1); });
    for (std::thread &thread : threads)
        thread.join();
    for (long sum : sums)
        std::printf("sum %ld\n", sum);
    std::printf("%ld frames were left, here %ld\n", left.load(), mine);

    std::exception_ptr handed[THREADS];
    threads.clear();
    for (int i = 0; i < THREADS; i++)
        threads.emplace_back([i, &handed] {
            try {
                down(i, 100 + i);
            } catch (...) {
                handed[i] = std::current_exception();
            }
        });
    for (std::thread &thread : threads)
        thread.join();
    for (const std::exception_ptr &each : handed)
        try {
            std::rethrow_exception(each);
        } catch (long n) {
            std::printf("handed %ld\n", n);
        }

    std::promise<int> promise;
    std::future<int> future = promise.get_future();
    std::thread giver([&promise] {
        try {
            throw std::out_of_range("of a promise");
        } catch (...) {
            promise.set_exception(std::current_exception());
        }
    });
    try {
        std::printf("%d\n", future.get());
    } catch (const std::out_of_range &error) {
        std::printf("future: %s\n", error.what());
    }
    giver.join();
    std::future<long> later = std::async(std::launch::async, [] { return down(3, 33), 0L; });
    try {
        std::printf("%ld\n", later.get());
    } catch (long n) {
        std::printf("async: %ld\n", n);
    }
    try {
        std::promise<int> broken;
        std::future<int> none = broken.get_future();
        { std::promise<int> taken = std::move(broken); }
        std::printf("%d\n", none.get());
    } catch (const std::future_error &error) {
        std::printf("broken promise: %s\n", error.code() == std::future_errc::broken_promise ? "so it says" : "another");
    }

    try {
        std::thread none;
        none.join();
    } catch (const std::system_error &error) {
        std::printf("no thread: %s\n", error.code() == std::errc::invalid_argument ? "not to be joined" : "another");
    }
    std::puts("end of crowd");
}
