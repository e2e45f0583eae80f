! Adds, stores and loads: a sum goes to memory and is read back.
! Its log: --cores 1 --strands 1 --ram 65536 --budget 10
        .org 0x100
        mov 2, %g1
        add %g1, 3, %g1
        stx %g1, [0x200]
        ldx [0x200], %g2
        wr %g0, 0, %asr26               ! halts the strand
