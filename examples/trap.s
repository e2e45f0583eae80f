! Takes a trap by a trap instruction, and comes back behind it by done.
! Its log: --cores 1 --strands 1 --ram 65536 --budget 10
        .org 0x100
        ta 1                            ! trap 101 hex
        wr %g0, 0, %asr26               ! halts the strand

        .skip 0x2020 - .                ! its handler stands at 32 * 101 hex
        done
