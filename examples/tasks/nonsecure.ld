/* Where the Non-secure image lies on @demo. */
MEMORY
{
    ROM (rx) : ORIGIN = 0x00200000, LENGTH = 0x10000
    RAM (rw) : ORIGIN = 0x20000000, LENGTH = 0x8000
}

PHDRS
{
    code PT_LOAD;
    data PT_LOAD;
}

stack_top = ORIGIN(RAM) + LENGTH(RAM);

SECTIONS
{
    .text : { KEEP(*(.vectors)) *(.text*) *(.rodata*) } > ROM : code
    .data : { data_begin = .; *(.data*) data_end = .; } > RAM AT > ROM : data
    data_image = LOADADDR(.data);
    .bss (NOLOAD) : { bss_begin = .; *(.bss*) bss_end = .; } > RAM : NONE
    .ARM.attributes 0 : { *(.ARM.attributes) }
    /DISCARD/ : { *(.comment) *(.ARM.exidx*) }
}
