/* The unwinder without a C library: the calls that are under way are listed from the innermost out, an exception is raised that nobody takes, and one that
 * goes through all frames does what they have to clean up. bare.c has what the unwinder asks for; start.c starts the program. */
#include <stdint.h>
#include <unwind.h>

long ask(long number, long a, long b, long c); /* start.c's */
_Noreturn void exit(int status);
void start(long *stack);
int main(int, char **);

static void say(const char *text) {
    long length = 0;
    while (text[length] != 0)
        length++;
    ask(64, 1, (long)text, length);
}

static void say_number(long number) {
    char digits[24];
    int at = 23;
    digits[at] = 0;
    do
        digits[--at] = (char)('0' + number % 10);
    while ((number /= 10) > 0);
    say(digits + at);
}

__attribute__((noinline)) static long innermost(int n);
__attribute__((noinline)) static long middle(int n);
__attribute__((noinline)) static long wide(int n);
__attribute__((noinline)) static long outer(int n);
static long (*volatile last)(int) = innermost;

static const struct {
    uintptr_t function;
    const char *name;
} known[] = {
    { (uintptr_t)innermost, "innermost" }, { (uintptr_t)middle, "middle" }, { (uintptr_t)wide, "wide" },
    { (uintptr_t)outer, "outer" },         { (uintptr_t)main, "main" },     { (uintptr_t)start, "start" },
};

static const char *name_of(uintptr_t function) {
    for (unsigned i = 0; i < sizeof known / sizeof known[0]; i++)
        if (known[i].function == function)
            return known[i].name;
    return function == 0 ? "the first" : "another";
}

static _Unwind_Reason_Code listed(struct _Unwind_Context *context, void *told) {
    int before = 0;
    uintptr_t at = _Unwind_GetIPInfo(context, &before) - (before == 0);
    uintptr_t function = (uintptr_t)_Unwind_FindEnclosingFunction((void *)at);
    say(" ");
    say(name_of(function));
    ++*(long *)told;
    return function == 0 || function == _Unwind_GetRegionStart(context) ? _URC_NO_REASON : _URC_NORMAL_STOP; /* _start has no record */
}

/* What is cleaned up: the number of each frame is told. */
static long cleaned;
static void clean(int *what) {
    cleaned++;
    say(" ");
    say_number(*what);
}

static struct _Unwind_Exception exception;

static _Unwind_Reason_Code passed(int version, _Unwind_Action actions, _Unwind_Exception_Class class, struct _Unwind_Exception *object,
                                  struct _Unwind_Context *context, void *told) {
    long *frames = told;
    if (version != 1 || class != 0 || object != &exception || (actions & _UA_FORCE_UNWIND) == 0)
        exit(3);
    if ((actions & _UA_END_OF_STACK) == 0 && _Unwind_GetRegionStart(context) != (uintptr_t)main) {
        ++*frames;
        return _URC_NO_REASON;
    }
    say("\nforced through ");
    say_number(*frames);
    say(" frames, ");
    say_number(cleaned);
    say(" cleaned up\nend of walks\n");
    exit(actions & _UA_END_OF_STACK ? 4 : 0);
}

static long frames;

static long innermost(int n) {
    long count = 0;
    say("under way:");
    _Unwind_Reason_Code end = _Unwind_Backtrace(listed, &count);
    say("\n");
    say_number(count);
    say(end == _URC_END_OF_STACK ? " calls, to the end\n" : " calls\n");
    say(_Unwind_RaiseException(&exception) == _URC_END_OF_STACK ? "raised: nobody takes it\n" : "raised: another end\n");
    if (n == 0)
        return count;
    say("cleaned up:");
    __attribute__((cleanup(clean))) int what = 1000;
    _Unwind_ForcedUnwind(&exception, passed, &frames);
    exit(5);
}

static long middle(int n) {
    __attribute__((cleanup(clean))) int what = n;
    return (n % 100 == 0 ? last(n) : middle(n - 1)) + 1;
}

static long wide(int n) {
    __attribute__((cleanup(clean))) int what = n;
    volatile char room[n * 10 + 1];
    room[n * 10] = (char)n;
    return middle(n + 3) + room[n * 10];
}

static long outer(int n) {
    __attribute__((cleanup(clean))) int what = n;
    return wide(n + 2) + 1;
}

int main(int count, char **words) {
    (void)count;
    (void)words;
    long count_of_calls = innermost(0);
    say("back with ");
    say_number(count_of_calls);
    say("\n");
    return (int)outer(100) & 0;
}
