/* Code at 0, 16 KiB of memory at 0x20000000: all three boards have at least that. */
MEMORY
{
    CODE (rx) : ORIGIN = 0, LENGTH = 128K
    DATA (rw) : ORIGIN = 0x20000000, LENGTH = 16K
}

ENTRY(start)

SECTIONS
{
    .text : { KEEP(*(.vectors)) *(.text*) *(.rodata*) } > CODE
    .ARM.exidx : { *(.ARM.exidx*) } > CODE
    .bss (NOLOAD) : { zero_first = .; *(.bss*) *(COMMON) . = ALIGN(4); zero_end = .; } > DATA
    .data : { *(.data*) } > DATA
    /* nothing copies bytes to .data at the start */
    ASSERT(SIZEOF(.data) == 0, "there is data with a value")
    stack_top = ORIGIN(DATA) + LENGTH(DATA);
    ASSERT(stack_top - zero_end >= 4K, "little is left for the stack")
}
