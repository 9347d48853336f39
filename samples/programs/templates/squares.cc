#include "templates.h"

struct Square : Figure {
    long side;
    explicit Square(long n) : side(n) {}
    long area() const override { return side * side; }
};

long work_of_squares() {
    Square small(3), large(4);
    const Figure *either = &small;
    HIDDEN(either);
    return either->doubled() + large.doubled() + counted(1);
}

// a figure of which nothing is made
INLINE_MARK(idle_figure);
struct Idle : Figure {
    long area() const override { return seen(mark_idle_figure); }
};
long idle_figures() {
    Idle idle;
    const Figure *either = &idle;
    HIDDEN(either);
    return either->doubled();
}
