// C++ with its standard library: streams, containers, strings and a thread-local object. Nothing is thrown.
#include <algorithm>
#include <functional>
#include <iomanip>
#include <iostream>
#include <map>
#include <memory>
#include <sstream>
#include <string>
#include <vector>

struct Shape {
    virtual double area() const = 0;
    virtual ~Shape() = default;
};
struct Square : Shape {
    double side;
    explicit Square(double s) : side(s) {}
    double area() const override { return side * side; }
};
struct Circle : Shape {
    double radius;
    explicit Circle(double r) : radius(r) {}
    double area() const override { return 3.0 * radius * radius; }
};

static thread_local std::string word = "first";
static std::map<std::string, int> counts; // made before main

static std::string upper(std::string text) {
    std::transform(text.begin(), text.end(), text.begin(), [](char c) { return c >= 'a' && c <= 'z' ? static_cast<char>(c - 32) : c; });
    return text;
}

int main() {
    std::istringstream text("the cat and the dog and the bird");
    for (std::string each; text >> each;)
        counts[each]++;
    for (const auto &[each, count] : counts)
        std::cout << std::setw(6) << each << ' ' << count << '\n';
    std::vector<std::unique_ptr<Shape>> shapes;
    for (int i = 1; i <= 3; i++) {
        shapes.push_back(std::make_unique<Square>(i));
        shapes.push_back(std::make_unique<Circle>(i));
    }
    std::sort(shapes.begin(), shapes.end(), [](const auto &a, const auto &b) { return a->area() < b->area(); });
    std::cout << std::fixed << std::setprecision(2);
    for (const auto &shape : shapes)
        std::cout << shape->area() << (dynamic_cast<const Square *>(shape.get()) != nullptr ? " square\n" : " circle\n");
    std::function<int(int)> fibonacci = [&](int n) { return n < 2 ? n : fibonacci(n - 1) + fibonacci(n - 2); };
    std::cout << upper(word) << ' ' << fibonacci(20) << ' ' << std::hex << std::showbase << 48879 << '\n';
    std::cout << "end of streams" << std::endl;
}
