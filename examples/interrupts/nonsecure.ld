/* Where the Non-secure image lies on the board. The names that begin with `__` are those that newlib asks for. */
MEMORY
{
    ROM (rx) : ORIGIN = 0x00200000, LENGTH = 0x2000
    RAM (rw) : ORIGIN = 0x28200000, LENGTH = 0x1000
}

PHDRS
{
    code PT_LOAD;
    data PT_LOAD;
}

ENTRY(reset)
stack_top = ORIGIN(RAM) + LENGTH(RAM);
__stack = stack_top;

SECTIONS
{
    .text : {
        KEEP(*(.vectors)) *(.text*) KEEP(*(.init)) KEEP(*(.fini)) *(.rodata*) *(.eh_frame*)
        . = ALIGN(4);
        __preinit_array_start = .; KEEP(*(.preinit_array*)) __preinit_array_end = .;
        __init_array_start = .; KEEP(*(.init_array*)) __init_array_end = .;
        __fini_array_start = .; KEEP(*(.fini_array*)) __fini_array_end = .;
    } > ROM : code
    .data : { data_begin = .; *(.data*) *(.tm_clone_table*) . = ALIGN(4); data_end = .; } > RAM AT > ROM : data
    data_image = LOADADDR(.data);
    .bss (NOLOAD) : { __bss_start__ = .; *(.bss*) *(COMMON) . = ALIGN(4); __bss_end__ = .; } > RAM : NONE
    end = .;
    .ARM.attributes 0 : { *(.ARM.attributes) }
    /DISCARD/ : { *(.comment) *(.ARM.exidx*) }
}
