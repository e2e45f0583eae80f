! A guest that GNU as and GNU ld make: with sections, a note, and a stack segment of no size.
! Its log: --cores 1 --strands 1 --ram 2097152 --budget 10
        .section .note.guest, "a", @note
        .align  4
        .word   4, 4, 1
        .asciz  "t1s"
        .word   26

        .section .text
        .align  4
        .global _start
_start: set     counter, %l0
        ldx     [%l0], %g1
        add     %g1, 3, %g1
        stx     %g1, [%l0]
        wr      %g0, 0, %asr26          ! halts the strand

        .section .data
        .align  8
counter:
        .xword  2

        .section .bss
        .align  8
        .skip   64

        .section .note.GNU-stack, "", @progbits
