/* The memory of the smallest emulated board, a micro:bit; the others have more at the same places. */
MEMORY {
    flash (rx) : ORIGIN = 0x00000000, LENGTH = 256K
    ram (rw) : ORIGIN = 0x20000000, LENGTH = 16K
}
ENTRY(reset)
SECTIONS {
    .text : { KEEP(*(.vectors)) *(.text* .rodata*) . = ALIGN(8); } > flash
    .ARM.exidx : { *(.ARM.exidx*) . = ALIGN(8); } > flash
    .data : { data_begin = .; *(.data*) . = ALIGN(8); data_end = .; } > ram AT > flash
    data_from = LOADADDR(.data);
    .bss (NOLOAD) : { bss_begin = .; *(.bss* COMMON) . = ALIGN(8); bss_end = .; } > ram
    end = .; /* The heap begins here and grows towards the stack. */
    stack_top = ORIGIN(ram) + LENGTH(ram);
}
