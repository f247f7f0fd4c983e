/* The board's memory: code in the first static RAM, variables and stack in the second, the journal alone in the chip behind it. */
MEMORY {
    code : ORIGIN = 0x00000000, LENGTH = 4M
    variables : ORIGIN = 0x20000000, LENGTH = 4M
    lasting : ORIGIN = 0x21000000, LENGTH = 16M
}

/* Only these are loaded: what is in no part of the program stays as the memory has it. */
PHDRS {
    code PT_LOAD;
    variables PT_LOAD;
}

ENTRY(start)
SECTIONS {
    .text : { KEEP(*(.vectors)) *(.text*) *(.rodata*) . = ALIGN(8); } > code :code
    .ARM.exidx : { *(.ARM.exidx*) } > code :code
    .data : { data_start = .; *(.data*) . = ALIGN(8); data_end = .; } > variables AT> code :variables
    data_load = LOADADDR(.data);
    .bss (NOLOAD) : { bss_start = .; *(.bss*) *(COMMON) . = ALIGN(8); bss_end = .; } > variables :NONE
    .journal (NOLOAD) : { *(.journal) } > lasting :NONE
    stack_top = ORIGIN(variables) + LENGTH(variables);
}

/* What tests/board/run holds the firmware's stack against. */
stack_bytes = 2K;
ASSERT(bss_end + stack_bytes <= stack_top, "variables and stack have no room beside each other")
