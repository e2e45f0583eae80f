! A spin lock. Four times each strand takes the lock, adds 1 to a counter by a plain load and a plain store,
! and gives the lock back. Ldstub takes it: one access reads the byte and writes ff. Stores leave a store
! buffer in order, so the store that gives the lock back needs no barrier before it. The strand that brings
! the counter to four for each strand writes the count to the console: 10 hexadecimal.
! Its summary: --cores 2 --strands 2 --ram 65536 --budget 2000 --brief
        .org 0x100
_start: set lock, %l0
        set counter, %l1
        mov 1, %l2
        sllx %l2, 39, %l2               ! the console
        sllx %o1, 2, %l3                ! four for each strand
        mov 4, %l4
take:   ldstub [%l0], %g1
        brz %g1, held                   ! it was free, and is ours
        nop
wait:   ldub [%l0], %g1                 ! another holds it: look on until it is free,
        brnz %g1, wait                  ! which writes nothing, and hits the L1 cache
        nop
        ba take
        nop
held:   ldx [%l1], %g2
        inc %g2
        stx %g2, [%l1]
        stb %g0, [%l0]                  ! gives the lock back
        cmp %g2, %l3
        bne %xcc, next
        nop
        stb %g2, [%l2]                  ! the last count of all
next:   dec %l4
        brnz %l4, take
        nop
        wr %g0, 0, %asr26               ! halts the strand

        .org 0x1000
lock:   .xword 0
        .org 0x1040                     ! a line of its own
counter: .xword 0
