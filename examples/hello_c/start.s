! Start-up of a program in C, and its window handlers; for GNU as.
!
! Each strand starts at _start with its number in %o0 and the number of strands in %o1, which are the two
! arguments of run. It gets 16 KiB of stack. Where a call needs a register window and none is free, the spill
! handler stores the oldest into the stack frame that this window's %sp points to; where a return needs one
! that was stored, the fill handler loads it. A handler stands at the base of the traps plus 32 times the trap
! type: 080 for spill and 0c0 for fill, with WSTATE 0. No other trap is handled: the zeros there are no
! instructions, so a run that takes one ends in status 3.
!
! %sp is 2047 below the frame, as the 64-bit ABI has it.

        .section .traps, "ax"
traps:
        .org    0x080 * 32              ! spill, for WSTATE 0
        stx     %l0, [%sp + 2047 + 0]
        stx     %l1, [%sp + 2047 + 8]
        stx     %l2, [%sp + 2047 + 16]
        stx     %l3, [%sp + 2047 + 24]
        stx     %l4, [%sp + 2047 + 32]
        stx     %l5, [%sp + 2047 + 40]
        stx     %l6, [%sp + 2047 + 48]
        stx     %l7, [%sp + 2047 + 56]
        stx     %i0, [%sp + 2047 + 64]
        stx     %i1, [%sp + 2047 + 72]
        stx     %i2, [%sp + 2047 + 80]
        stx     %i3, [%sp + 2047 + 88]
        stx     %i4, [%sp + 2047 + 96]
        stx     %i5, [%sp + 2047 + 104]
        stx     %i6, [%sp + 2047 + 112]
        stx     %i7, [%sp + 2047 + 120]
        saved
        retry

        .org    0x0c0 * 32              ! fill, for WSTATE 0
        ldx     [%sp + 2047 + 0], %l0
        ldx     [%sp + 2047 + 8], %l1
        ldx     [%sp + 2047 + 16], %l2
        ldx     [%sp + 2047 + 24], %l3
        ldx     [%sp + 2047 + 32], %l4
        ldx     [%sp + 2047 + 40], %l5
        ldx     [%sp + 2047 + 48], %l6
        ldx     [%sp + 2047 + 56], %l7
        ldx     [%sp + 2047 + 64], %i0
        ldx     [%sp + 2047 + 72], %i1
        ldx     [%sp + 2047 + 80], %i2
        ldx     [%sp + 2047 + 88], %i3
        ldx     [%sp + 2047 + 96], %i4
        ldx     [%sp + 2047 + 104], %i5
        ldx     [%sp + 2047 + 112], %i6
        ldx     [%sp + 2047 + 120], %i7
        restored
        retry

        .section .text
        .global _start
_start: set     traps, %g1
        wrpr    %g1, 0, %tba
        set     stacks, %g1             ! the end of all stacks
        sllx    %o0, 14, %g4
        sub     %g1, %g4, %g1           ! the end of this one
        sub     %g1, 176 + 2047, %sp    ! a frame, at its least
        clr     %fp
        call    run
         nop
        wr      %g0, 0, %asr26          ! halts the strand

        .section .note.GNU-stack, "", @progbits
