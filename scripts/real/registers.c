/* Tells the unwinder for machines without a system where the records are, as crtbegin.o does: a symbol at the start of this file's `.eh_frame` is the start of all. */
extern const unsigned char own_records[];
void __register_frame_info(const void *begin, void *room);
void *__deregister_frame_info(const void *begin);

__asm__(".section .eh_frame, \"a\", @progbits\n"
        "own_records:\n"
        ".text\n");

static long room[8]; /* struct object of libgcc */

__attribute__((constructor)) static void add(void) { __register_frame_info(own_records, room); }
__attribute__((destructor)) static void take(void) {
    if (__deregister_frame_info(own_records) != room)
        __builtin_trap();
}
