#include "templates.h"

struct Square : Figure {
    long side;
    explicit Square(long n) : side(n) {}
    long area() const override { return side * side; }
};

INLINE_MARK(circle_name);
struct Circle : Figure {
    long radius;
    explicit Circle(long n) : radius(n) {}
    long area() const override { return 3 * radius * radius; }
    const char *name() const override { return mark_circle_name; }
};

extern "C" [[noreturn]] void __cxa_pure_virtual() { leave(99); }

__attribute__((noinline)) static long told(const Figure &figure) {
    const Figure *hidden = &figure;
    HIDDEN(hidden);
    return hidden->doubled() + hidden->name()[5];
}

long work_of_figures() {
    Square square(5);
    Circle circle(2);
    return told(square) + told(circle);
}
