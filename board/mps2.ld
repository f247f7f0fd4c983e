/* Memory of QEMU's mps2-an386, for test programs: 4 MiB at 0 for code and constants, 16 MiB for variables, heap and stack. */
MEMORY
{
    rom : ORIGIN = 0x00000000, LENGTH = 4M
    ram : ORIGIN = 0x21000000, LENGTH = 16M
}
ENTRY(reset)
SECTIONS
{
    /* The comparison's innermost loop first: the emulator takes three times as long where a loop crosses a boundary of 1 KiB. */
    .text : { KEEP(*(.vectors)) . = ALIGN(1024); *lib_a-memcmp.o(.text*) *(.text*) *(.rodata*) . = ALIGN(8); } > rom
    .ARM.exidx : { *(.ARM.exidx*) } > rom
    data_load = LOADADDR(.data);
    .data : { data_start = .; *(.data*) . = ALIGN(8); data_end = .; } > ram AT> rom
    /* Loaded nowhere: behind .data in rom the emulator would write its zeros over the code, where there are many. */
    .bss (NOLOAD) : { bss_start = .; *(.bss*) *(COMMON) . = ALIGN(8); bss_end = .; } > ram AT> ram
    end = bss_end; /* where the C library's heap begins */
    stack_top = ORIGIN(ram) + LENGTH(ram);
}
