// What the files of one program in C++ share: templates, inline functions, inline data and a class with virtual functions, so that
// most files have the same COMDAT groups. Each function has a mark of its own, a text in a section of its own: where the function is
// in an executable, its mark is.
typedef unsigned long word;

#define HIDDEN(pointer) __asm__("" : "+r"(pointer))
#define MARK(name) extern const char mark_##name[] = "mark:" #name ";"
#define INLINE_MARK(name) inline const char mark_##name[] = "mark:" #name ";"

// output.cc
void put_text(const char *text);
void put_number(long n);
void flush();
[[noreturn]] void leave(long status);
// arrays.cc: how many constructors ran, each adds a letter
void built(char letter);
const char *all_built();
// one call for each file's part of the work
long work_of_sums();
long work_of_sorts();
long work_of_stacks();
long work_of_figures();
long work_of_squares();
long work_of_counts();

// A function's mark is read by it, so that it needs the mark.
inline long seen(const char *mark) {
    HIDDEN(mark);
    return mark[4] == ':';
}

INLINE_MARK(largest);
template <class T> __attribute__((noinline)) T largest(const T *from, word count) {
    T most = from[0];
    for (word i = 1; i < count; i++)
        if (most < from[i]) most = from[i];
    return seen(mark_largest) ? most : from[0];
}

INLINE_MARK(sorted);
template <class T> __attribute__((noinline)) void sort(T *items, word count) {
    HIDDEN(items);
    if (!seen(mark_sorted)) return;
    for (word i = 1; i < count; i++)
        for (word j = i; j > 0 && items[j] < items[j - 1]; j--) {
            T other = items[j];
            items[j] = items[j - 1];
            items[j - 1] = other;
        }
}

// the same table for all files: how often each was asked for
INLINE_MARK(counted);
inline long counts[4] = { 10, 20, 30, 40 };
__attribute__((noinline)) inline long counted(word which) {
    long *to = counts;
    HIDDEN(to);
    return to[which] += seen(mark_counted);
}

// an inline function that keeps data of its own
INLINE_MARK(next_number);
__attribute__((noinline)) inline long next_number() {
    static long number = 100;
    long *to = &number;
    HIDDEN(to);
    return *to += seen(mark_next_number);
}

// inline, and asked for by nothing that is kept
INLINE_MARK(idle_inline);
__attribute__((noinline)) inline long idle_inline(long n) { return n * seen(mark_idle_inline) + 3; }

template <class T> struct Stack {
    T items[8];
    word used = 0;
    __attribute__((noinline)) void push(T item) { items[used++] = item; }
    __attribute__((noinline)) T pop() { return items[--used]; }
};

INLINE_MARK(figure_name);
struct Figure {
    virtual long area() const = 0;
    virtual const char *name() const { return mark_figure_name; }
    __attribute__((noinline)) long doubled() const { return 2 * area(); }
};
