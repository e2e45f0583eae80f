! Message passing. Strand 0 stores a message and then a flag; each other strand loads the flag until it is
! set, and then the message, which it writes to the console. Under total store order no barrier is needed:
! the two stores stand in the memory order as in the program, and so do the two loads.
! Its log: --cores 2 --strands 1 --ram 65536 --budget 1000
        .org 0x100
_start: set message, %l0
        set flag, %l1
        mov 1, %l2
        sllx %l2, 39, %l2               ! the console
        brnz %o0, read
        mov 1, %g2
        mov 0x21, %g1
        stx %g1, [%l0]                  ! the message,
        stx %g2, [%l1]                  ! and then the flag
        wr %g0, 0, %asr26               ! halts the strand

read:   ldx [%l1], %g2
        brz %g2, read
        nop
        ldx [%l0], %g1
        stb %g1, [%l2]
        wr %g0, 0, %asr26

        .org 0x1000
message: .xword 0
        .org 0x1040                     ! a line of another bank
flag:   .xword 0
