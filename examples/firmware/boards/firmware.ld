/* What a firmware is made of, in the flash and the ram of its board. */
ENTRY(begin)
SECTIONS {
    .text : { KEEP(*(.start)) *(.text .text.*) *(.rodata .rodata.*) . = ALIGN(8); } > flash
    .data : { data_begin = .; *(.data .data.* .sdata .sdata.*) . = ALIGN(8); data_end = .; } > ram AT > flash
    data_values = LOADADDR(.data);
    .bss (NOLOAD) : { bss_begin = .; *(.bss .bss.* .sbss .sbss.* COMMON) . = ALIGN(8); bss_end = .; } > ram
    /DISCARD/ : { *(.ARM.exidx* .ARM.extab* .eh_frame* .comment .note.GNU-stack) }
    stack_top = ORIGIN(ram) + LENGTH(ram);
}
/* A stack that is too small is seen by nothing else. A call of the library takes some 1 KB at most (docs/C.md). */
ASSERT(stack_top - bss_end >= 4K, "no room for the stack")
