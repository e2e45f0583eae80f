! Peterson's lock for two strands, without its fence, which is wrong under total store order: a strand may
! look at the other's wish while its own is still in its store buffer. By this seed both do (items 16 of the
! log are commits 3 and 4, and their stores, items 12, are commits 5 and 6), so both enter and both add 1 to
! 0: the console gets 01 twice. By turns, and by the seeds 0 to 4, the mistake does not show.
! Its log: --cores 1 --strands 2 --ram 65536 --budget 1000 --seed 5
        .org 0x100
_start: set wants, %l0
        set turn, %l1
        set counter, %l2
        mov 1, %l3
        sllx %l3, 39, %l4               ! the console
        xor %o0, 1, %l5                 ! the other strand
        sllx %o0, 3, %o2
        sllx %l5, 3, %o3
        stx %l3, [%l0+%o2]              ! this strand wants to enter,
        stx %l5, [%l1]                  ! and the other may go first
wait:   ldx [%l0+%o3], %g1
        brz %g1, enter                  ! the other does not want to
        nop
        ldx [%l1], %g1
        cmp %g1, %l5
        be %xcc, wait                   ! it wants to, and may go first
        nop
enter:  ldx [%l2], %g2
        inc %g2
        stx %g2, [%l2]
        stb %g2, [%l4]                  ! the count goes to the console
        stx %g0, [%l0+%o2]              ! leaves
        wr %g0, 0, %asr26               ! halts the strand

        .org 0x1000
wants:  .xword 0, 0
turn:   .xword 0
counter: .xword 0
