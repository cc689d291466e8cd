/*
 * The memory of an LM3S6965: 256 KiB of flash, 64 KiB of RAM.
 *
 * The stack is at the very bottom of RAM and grows down. There is no memory below it, so that an overflow writes over
 * no variable: on the chip it is a fault at once. QEMU ignores such a write.
 */
ENTRY(reset)

STACK_SIZE = 2048;

MEMORY
{
    FLASH (rx) : ORIGIN = 0x00000000, LENGTH = 256K
    RAM (rw) : ORIGIN = 0x20000000, LENGTH = 64K
}

SECTIONS
{
    .text :
    {
        KEEP(*(.vectors))
        *(.text .text.*)
        *(.rodata .rodata.*)
        . = ALIGN(4);
    } > FLASH

    .stack (NOLOAD) :
    {
        stack_bottom = .;
        . += STACK_SIZE;
        stack_top = .;
    } > RAM

    /* It has its values in flash, and startup.c copies them. */
    .data : ALIGN(4)
    {
        data_start = .;
        *(.data .data.*)
        . = ALIGN(4);
        data_end = .;
    } > RAM AT > FLASH
    data_values = LOADADDR(.data);

    .bss (NOLOAD) : ALIGN(4)
    {
        bss_start = .;
        *(.bss .bss.* COMMON)
        . = ALIGN(4);
        bss_end = .;
    } > RAM

    /* Tables to unwind the stack, which C has no use for. */
    /DISCARD/ : { *(.ARM.exidx .ARM.exidx.* .ARM.extab .ARM.extab.*) }
}

ASSERT(stack_bottom == ORIGIN(RAM), "the stack is not at the bottom of RAM")
ASSERT(stack_top % 8 == 0, "the top of the stack is not at a multiple of 8")
