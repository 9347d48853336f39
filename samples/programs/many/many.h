// What the files of one program share: a small calculator that reads its lines, names and numbers from memory.
// Each store to memory that stands at a name goes through a pointer that the compiler can't see through (HIDDEN),
// so that no relocation of a store is left.
typedef unsigned long word;

#define HIDDEN(pointer) __asm__("" : "+r"(pointer))

struct order {
    const char *name;
    long (*work)(long, long);
};

// start.c
extern const char *const programs[];
__attribute__((noreturn)) void leave(long status);
// output.c
void put_text(const char *text);
void put_number(long n);
void flush(void);
// memory.c
void *memset(void *to, int value, word count);
void *memcpy(void *to, const void *from, word count);
int same(const char *a, const char *b, word count);
// cursor.c: where the reading stands
void look_at(const char *text);
char next(void);
char take(void);
word steps(void);
// expression.c, term.c, factor.c: each calls the next, and the last the first
long expression(void);
long term(void);
long factor(void);
// slots.c: the values of the names a to z
long value_of(char name);
void give(char name, long value);
// orders.c
extern const struct order orders[];
long call(const char *name, word length, long a, long b);
// base.c, base-default.c: a strong definition takes the place of a weak one
word base_of(void);
// note.c; notes of a program that has none are passed over
int noted(void);
extern void note(const char *text) __attribute__((weak));
// shared.c
int shared_is_whole(void);
