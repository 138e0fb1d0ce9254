/* The memory of the emulated board mps2-an386, as far as the programs need it: code from 0 on, data from 0x20000000. */
ENTRY(reset)
MEMORY
{
    CODE (rx) : ORIGIN = 0x00000000, LENGTH = 4M
    DATA (rw) : ORIGIN = 0x20000000, LENGTH = 4M
}
PROVIDE(stack_top = ORIGIN(DATA) + LENGTH(DATA));
SECTIONS
{
    .text : { KEEP(*(.vectors)) *(.text .text.*) *(.rodata .rodata.*) } >CODE
    .ARM.exidx : { *(.ARM.exidx .ARM.exidx.*) } >CODE
    .data : { data_start = .; *(.data .data.*) . = ALIGN(4); data_end = .; } >DATA AT>CODE
    data_kept = LOADADDR(.data);
    .bss (NOLOAD) : { bss_start = .; *(.bss .bss.* COMMON) . = ALIGN(4); bss_end = .; } >DATA
}
