! Takes traps until its trap levels are used up: its one word is no instruction, and neither are the
! zeros of memory where the traps go.
! Its log: --cores 1 --strands 1 --ram 65536 --budget 10
        .org 0x100
        .word 0
