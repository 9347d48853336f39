// Exceptions that the standard library throws, and others that go through its code: out of what it calls, and out of what it holds. flows.cpp has those of
// streams, files and locales.
#include <algorithm>
#include <any>
#include <bitset>
#include <cstdio>
#include <functional>
#include <limits>
#include <list>
#include <map>
#include <memory>
#include <new>
#include <numeric>
#include <optional>
#include <stdexcept>
#include <string>
#include <system_error>
#include <typeinfo>
#include <variant>
#include <vector>

template <typename Error, typename Function> void expect(const char *what, Function function) {
    try {
        function();
        std::printf("%s: nothing\n", what);
    } catch (const Error &) {
        std::printf("%s: as expected\n", what);
    } catch (const std::exception &error) {
        std::printf("%s: another, %s\n", what, typeid(error).name());
    } catch (...) {
        std::printf("%s: another\n", what);
    }
}

// what can't be copied once so many copies are made
static int live, copies_left;
struct Fragile {
    int n;
    explicit Fragile(int number) : n(number) { live++; }
    Fragile(const Fragile &other) : n(other.n) {
        if (copies_left-- == 0)
            throw n;
        live++;
    }
    Fragile &operator=(const Fragile &other) {
        if (copies_left-- == 0)
            throw n;
        n = other.n;
        return *this;
    }
    ~Fragile() { live--; }
    bool operator<(const Fragile &other) const {
        if (n == 13 || other.n == 13)
            throw std::string("unlucky");
        return n < other.n;
    }
};
static void *volatile room;
struct Shape {
    virtual ~Shape() {}
};
struct Round : Shape {};
struct Flat : Shape {};

int main() {
    std::vector<int> numbers = {3, 1, 2};
    std::map<std::string, int> counts = {{"one", 1}};
    volatile std::size_t most = std::numeric_limits<std::size_t>::max() / 4;
    expect<std::out_of_range>("vector", [&] { std::printf("%d\n", numbers.at(3)); });
    expect<std::out_of_range>("map", [&] { std::printf("%d\n", counts.at("two")); });
    expect<std::out_of_range>("string", [] { std::printf("%s\n", std::string("short").substr(9).c_str()); });
    expect<std::length_error>("reserve", [&] { numbers.reserve(most * 3); });
    expect<std::bad_alloc>("new", [&] { room = new char[most]; });
    expect<std::bad_alloc>("new of too many", [&] { room = new Fragile *[most * 3]; });
    expect<std::invalid_argument>("stoi", [] { std::printf("%d\n", std::stoi("none")); });
    expect<std::out_of_range>("stoi of too much", [] { std::printf("%d\n", std::stoi("99999999999")); });
    expect<std::bad_cast>("dynamic_cast", [] {
        Round round;
        Shape &shape = round;
        Flat &flat = dynamic_cast<Flat &>(shape);
        std::printf("%s\n", typeid(flat).name());
    });
    expect<std::bad_typeid>("typeid", [] {
        Shape *volatile none = nullptr;
        std::puts(typeid(*none).name());
    });
    expect<std::bad_function_call>("function", [] { std::function<void()>()(); });
    expect<std::bad_optional_access>("optional", [] { std::printf("%d\n", std::optional<int>().value()); });
    expect<std::bad_variant_access>("variant", [] { std::printf("%d\n", std::get<int>(std::variant<int, double>(2.5))); });
    expect<std::bad_any_cast>("any", [] { std::printf("%d\n", std::any_cast<int>(std::any(2.5))); });
    expect<std::bad_weak_ptr>("weak_ptr", [] { std::shared_ptr<int>(std::weak_ptr<int>()); });
    expect<std::invalid_argument>("bitset", [] { std::printf("%zu\n", std::bitset<8>("012").count()); });
    expect<std::system_error>("system_error", [] { throw std::system_error(ERANGE, std::generic_category(), "own"); });
    try {
        throw std::system_error(std::make_error_code(std::errc::no_such_file_or_directory));
    } catch (const std::system_error &error) {
        std::printf("its code: %d, %s\n", error.code().value(), error.code() == std::errc::no_such_file_or_directory ? "no such file" : "another");
    }

    // through algorithms and containers
    try {
        std::sort(numbers.begin(), numbers.end(), [](int a, int b) { return a == 2 || b == 2 ? throw a + b : a < b; });
    } catch (int n) {
        std::printf("sort: %d\n", n);
    }
    try {
        std::printf("%d\n", std::accumulate(numbers.begin(), numbers.end(), 0, [](int sum, int n) { return sum + n > 4 ? throw sum : sum + n; }));
    } catch (int sum) {
        std::printf("accumulate: %d\n", sum);
    }
    std::function<int(int)> descend = [&](int n) { return n == 0 ? throw std::string("at the end") : descend(n - 1) + 1; };
    try {
        std::printf("%d\n", descend(100));
    } catch (const std::string &text) {
        std::printf("function: %s\n", text.c_str());
    }
    int failures = 0;
    for (int copies = 0, is_whole = 0; !is_whole; copies++) {
        copies_left = copies;
        try {
            std::vector<Fragile> fragile;
            std::list<Fragile> list;
            for (int i = 0; i < 20; i++)
                fragile.emplace_back(i * 5 % 12);
            list.assign(fragile.begin(), fragile.end());
            std::sort(fragile.begin(), fragile.end());
            fragile.insert(fragile.begin() + 2, list.begin(), list.end());
            std::map<int, Fragile> by_number;
            for (const Fragile &each : fragile)
                by_number.emplace(each.n, each);
            is_whole = 1;
        } catch (int) {
            failures++;
        }
        if (live != 0)
            std::printf("%d are left after %d copies\n", live, copies);
    }
    std::printf("fragile: %s, %d left\n", failures > 50 ? "whole after many tries" : "whole after few tries", live);
    try {
        std::list<Fragile> list;
        for (int i = 0; i < 20; i++)
            list.emplace_back(i * 5 % 17);
        list.sort();
        std::puts("list: sorted");
    } catch (const std::string &text) {
        std::printf("list: %s, %d left\n", text.c_str(), live);
    }
    std::puts("end of library");
}
