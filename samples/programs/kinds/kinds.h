// A program that has every way to name a thing that a compiler knows: tables of jumps, texts, names local to a file and not, weak names, commons,
// arrays of functions, thread-local data, sections found by their names, and data that is far from its name's beginning.
typedef unsigned long word;
typedef unsigned char byte;

// start.c
__attribute__((noreturn)) void leave(long status);
void put_text(const char *text);
void put_number(const char *what, long n);
void *memset(void *to, int value, word count);
void *memcpy(void *to, const void *from, word count);
// main.c
int main(void);
// jumps.c
long jumped(long way);
const char *called(long way);
// weak.c, strong.c
long chosen(void);
extern long weight __attribute__((weak));
long absent(void) __attribute__((weak));
extern long nothing __attribute__((weak));
// arrays.c
extern char order[];
extern int orders;
void note_order(char mark);
// data.c
extern int shared[];
extern long total;
extern const char *const titles[];
extern long far_away[4096];
long far_sum(void);
long *behind(void);
// threads.c
extern __thread long counted;
extern __thread char zeros[40];
extern __thread long of_main;
long count_up(void);
long hidden_count(void);
const char *thread_text(void);
// sets.c
struct entry { const char *name; long value; };
long set_sum(void);
long set_count(void);
