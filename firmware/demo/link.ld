/* Where the demo lies in the board's RAM. QEMU loads the program anew at every reset; the record of a cut and the
   stack are in no section, so that it leaves them alone. */

ENTRY(_start)

PROGRAM    = 0x00100000;
RECORD     = 0x00800000;    /* survives a reset: src/record.rs */
STACK      = 0x00FF0000;    /* src/stack.rs: painted from here on */
STACK_TOP  = 0x01000000;

SECTIONS
{
    . = PROGRAM;
    .text   : { *(.text.start) *(.text .text.*) }
    .rodata : { *(.rodata .rodata.*) }
    .data   : { *(.data .data.*) }
    .bss    : { . = ALIGN(4); BSS_START = .; *(.bss .bss.*) *(COMMON) . = ALIGN(4); BSS_END = .; }

    /* A panic unwinds nothing. */
    /DISCARD/ : { *(.ARM.exidx*) *(.ARM.extab*) }
}

ASSERT(BSS_END <= RECORD, "the program reaches into the record")
ASSERT(RECORD + 0x1000 <= STACK, "the record reaches into the stack")
