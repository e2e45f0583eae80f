! An atomic counter of 32 strands. Ten times each strand loads the counter and puts one more in its place by
! compare and swap, which writes nothing where another strand was quicker: then it tries again. The strand
! that brings the counter to ten for each strand writes it to the console, in two bytes: 0140 hexadecimal.
! Its summary: --ram 65536 --budget 3000 --brief
        .org 0x100
_start: set counter, %l0
        mov 10, %l1
        mulx %o1, %l1, %l2              ! ten for each strand
again:  ldx [%l0], %g1
        add %g1, 1, %g2
        casx [%l0], %g1, %g2            ! %g2 gets what was there
        cmp %g1, %g2
        bne %xcc, again                 ! another was quicker
        nop
        inc %g1
        subcc %l1, 1, %l1
        bne %xcc, again
        nop
        cmp %g1, %l2
        bne %xcc, done
        mov 1, %l3
        sllx %l3, 39, %l3               ! the console
        srlx %g1, 8, %g2
        stb %g2, [%l3]
        stb %g1, [%l3]
done:   wr %g0, 0, %asr26               ! halts the strand

        .org 0x1000
counter: .xword 0
