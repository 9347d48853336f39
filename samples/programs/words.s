# Writes its own words, longest first, through a table of code addresses, and ends with status 7.
# The kinds of relocation are JAL, CALL_PLT, PCREL_HI20, PCREL_LO12_I and 64: each choice goes through the table `ways`,
# since a branch to a label would leave a relocation of its own kind.
        .option norvc
        .option norelax
        .section .text.start, "ax", @progbits
        .globl  late                    # another entry: only the last three words
late:   lla     s0, words + 64
        j       both
        .globl  _start
_start: lla     s0, words               # s0: the next word's record, an address and a length
both:   lla     s1, words_end
        li      s2, 0                   # s2: how many words were written
        j       more

        .text
one:    ld      a1, 0(s0)
        ld      a2, 8(s0)
        call    put
        addi    s0, s0, 16
        addi    s2, s2, 1
        j       more

more:   lla     t0, ways
        sltu    t1, s0, s1              # 1 where a word is left
        slli    t1, t1, 3
        add     t0, t0, t1
        ld      t0, 0(t0)
        jr      t0

done:   lla     t0, absent              # a weak name that nothing defines has the address 0
        snez    t0, t0
        add     s2, s2, t0
        lla     t0, count               # the count goes to memory and comes back
        sd      s2, 0(t0)
        call    last
        li      a7, 93                  # exit
        ecall

        .section .text.put, "ax", @progbits
        .balign 16
        .globl  put
        .type   put, @function
put:    li      a0, 1
        li      a7, 64                  # write
        ecall
        ret
        .size   put, . - put

        .globl  last
        .type   last, @function
last:   addi    sp, sp, -16
        sd      ra, 8(sp)
        lla     a1, end_text
        li      a2, 5
        jal     put
        lla     t0, count
        ld      a0, 0(t0)
        ld      ra, 8(sp)
        addi    sp, sp, 16
        ret
        .size   last, . - last

        .weak   absent

        .section .rodata, "a", @progbits
long:   .ascii  "relocation\n"
middle: .ascii  "section\n"
short:  .ascii  "ELF\n"
end_text:
        .ascii  "end.\n"

        .data
        .balign 8
ways:   .dword  done, one
        .globl  words
words:  .dword  long, 11
        .dword  middle, 8
        .dword  short, 4
        .dword  long + 2, 9
        .dword  middle + 4, 4
        .dword  short + 2, 2
        .dword  put_name, 4
words_end:
        .dword  put                     # the bytes of a function's name stand beside its address
put_name:
        .ascii  "put\n"

        .bss
        .balign 8
count:  .zero   8
