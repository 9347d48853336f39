# Sections that go with others: with a function that is kept, with one that is dropped, and a note.
    .section .text.asked, "ax", @progbits
    .globl asked
asked:
    ret
    .section .text.idle_asked, "ax", @progbits
    .globl idle_asked
idle_asked:
    ret
    .section .beside, "ao", @progbits, .text.asked
    .asciz "mark:beside_asked;"
    .section .beside, "ao", @progbits, .text.idle_asked
    .asciz "mark:beside_idle;"
    .section .note.marks, "a", @note
    .word 4, 12, 1
    .asciz "rvl"
    .asciz "mark:note;  "
    .section .init, "ax", @progbits
    call asked
    ret
    .section .data.held, "awR", @progbits
    .asciz "mark:held_data;"
    .section .data.idle, "aw", @progbits
    .asciz "mark:idle_data;"
