/* The memory of an MPS2: code and constants from 0 on, and what is written from 0x20000000 on. */
MEMORY {
    code (rx) : ORIGIN = 0, LENGTH = 4M
    data (rw) : ORIGIN = 0x20000000, LENGTH = 4M
}
ENTRY(start)
SECTIONS {
    .text : { KEEP(*(.vectors)) *(.text .text.*) *(.rodata .rodata.*) } > code
    .bss (NOLOAD) : { board_zero = .; *(.data .data.* .bss .bss.* COMMON) . = ALIGN(8); board_zero_end = .; } > data
    board_stack = ORIGIN(data) + 64K;
    /DISCARD/ : { *(.ARM.exidx*) }
}
