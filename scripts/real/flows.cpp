// Exceptions of streams, files, locales and regular expressions, and others that go through streams.
#include <cstdio>
#include <filesystem>
#include <fstream>
#include <iostream>
#include <locale>
#include <regex>
#include <sstream>
#include <stdexcept>
#include <string>
#include <typeinfo>

template <typename Error, typename Function> void expect(const char *what, Function function) {
    try {
        function();
        std::printf("%s: nothing\n", what);
    } catch (const Error &) {
        std::printf("%s: as expected\n", what);
    } catch (const std::exception &error) {
        std::printf("%s: another, %s\n", what, typeid(error).name());
    } catch (...) {
        std::printf("%s: another\n", what);
    }
}

int main() {
    expect<std::regex_error>("regex", [] { std::regex("(open"); });
    expect<std::runtime_error>("locale", [] { std::locale("of nowhere"); });
    expect<std::filesystem::filesystem_error>("file_size", [] { std::printf("%ju\n", std::filesystem::file_size("/of/nowhere")); });
    expect<std::ios_base::failure>("stream", [] {
        std::ifstream stream;
        stream.exceptions(std::ios_base::failbit);
        stream.open("/of/nowhere");
    });
    expect<std::ios_base::failure>("number of a stream", [] {
        std::istringstream stream("word");
        stream.exceptions(std::ios_base::failbit);
        int n;
        stream >> n;
    });

    // a stream swallows what its buffer throws, and tells so
    struct Broken : std::streambuf {
        int_type overflow(int_type) override { throw 7; }
    } broken;
    std::ostream stream(&broken);
    stream << "text";
    std::printf("stream: %s\n", stream.bad() ? "bad" : "good");
    std::ostream loud(&broken);
    try {
        loud.exceptions(std::ios_base::badbit);
        loud << "text";
    } catch (int n) {
        std::printf("loud stream: %d\n", n);
    }
    std::cout << "end of flows" << std::endl;
}
