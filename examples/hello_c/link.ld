/* Where a program in C stands: the trap table at a multiple of 8000 hexadecimal, code and data behind it, and
 * 16 KiB of stack for each of 32 strands. */
ENTRY(_start)
SECTIONS
{
    .traps 0x8000 : { *(.traps) }
    .text : { *(.text .text.*) }
    .rodata : { *(.rodata .rodata.*) }
    .data : { *(.data .data.*) }
    .bss : { *(.bss .bss.* COMMON) }
    . = ALIGN(0x4000);
    . = . + 32 * 0x4000;
    stacks = .;
    /DISCARD/ : { *(.comment) *(.eh_frame) }
}
