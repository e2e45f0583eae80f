! Peterson's lock for two strands, with its fence. Each strand adds 1 to a counter by a plain load and a
! plain store, and writes the count to the console: 01 and then 02. The fence makes it right: a strand looks
! at the other's wish only after its own stores stand in the memory order. Peterson_unfenced has none.
! Its log: --cores 1 --strands 2 --ram 65536 --budget 1000 --seed 5
        .org 0x100
_start: set wants, %l0
        set turn, %l1
        set counter, %l2
        mov 1, %l3
        sllx %l3, 39, %l4               ! the console
        xor %o0, 1, %l5                 ! the other strand
        sllx %o0, 3, %o2
        sllx %l5, 3, %o3
        stx %l3, [%l0+%o2]              ! this strand wants to enter,
        stx %l5, [%l1]                  ! and the other may go first
        membar #StoreLoad               ! both stores are made before what is loaded below
wait:   ldx [%l0+%o3], %g1
        brz %g1, enter                  ! the other does not want to
        nop
        ldx [%l1], %g1
        cmp %g1, %l5
        be %xcc, wait                   ! it wants to, and may go first
        nop
enter:  ldx [%l2], %g2
        inc %g2
        stx %g2, [%l2]
        stb %g2, [%l4]                  ! the count goes to the console
        stx %g0, [%l0+%o2]              ! leaves
        wr %g0, 0, %asr26               ! halts the strand

        .org 0x1000
wants:  .xword 0, 0
turn:   .xword 0
counter: .xword 0
