/* Lays a guest out in the board's memory, for GNU ld and lld.

   The headers are named so that no linker maps its own headers below memory. Code comes first, so that the
   same bytes serve as a raw image. What all harts share, what one hart alone writes (OF_HART of board.h) and
   each hart's stack have pages of their own. A stack has 4,096 bytes, or as many as `stack_size` says, which
   the words -Wl,--defsym=stack_size=8192 set. */

ENTRY(_start)

PHDRS
{
    code PT_LOAD FLAGS(5);
    data PT_LOAD FLAGS(6);
}

stack_stride = DEFINED(stack_size) ? (stack_size + 4095) / 4096 * 4096 : 4096;

SECTIONS
{
    . = 0x80000000;

    .text : { *(.text.start) *(.text .text.*) } :code
    .rodata : { *(.rodata .rodata.* .srodata .srodata.*) } :code

    . = ALIGN(4096);
    .data :
    {
        *(.data .data.* .sdata .sdata.*)
        . = ALIGN(4096); *(.hart0)
        . = ALIGN(4096); *(.hart1)
        . = ALIGN(4096); *(.hart2)
        . = ALIGN(4096); *(.hart3)
        . = ALIGN(4096); *(.hart4)
        . = ALIGN(4096); *(.hart5)
        . = ALIGN(4096); *(.hart6)
        . = ALIGN(4096); *(.hart7)
        . = ALIGN(4096);
    } :data
    .bss :
    {
        *(.sbss .sbss.* .bss .bss.* COMMON)
        . = ALIGN(4096);
        stacks = .;
        . += 8 * stack_stride;
    } :data

    /DISCARD/ : { *(.comment .eh_frame .eh_frame_hdr .note .note.*) }
}
