#include "templates.h"

long work_of_stacks() {
    Stack<long> stack;
    for (long n = 1; n < 5; n++) stack.push(n * n);
    long last = stack.pop();
    Stack<char> other;
    other.push('x');
    return last * 10 + stack.pop() + other.pop() + next_number();
}

MARK(idle_stacks);
short idle_stacks() {
    Stack<short> stack;
    stack.push((short)seen(mark_idle_stacks));
    return stack.pop();
}
