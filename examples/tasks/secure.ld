/* Where the Secure image lies on @demo. */
MEMORY
{
    ROM (rx) : ORIGIN = 0x10000000, LENGTH = 0x8000
    NSC (rx) : ORIGIN = 0x10008000, LENGTH = 0x8000
    RAM (rw) : ORIGIN = 0x30000000, LENGTH = 0x8000
}

PHDRS
{
    code PT_LOAD;
    gateways PT_LOAD;
}

stack_top = ORIGIN(RAM) + LENGTH(RAM);
nonsecure_vectors = 0x00200000;

SECTIONS
{
    .text : { KEEP(*(.vectors)) *(.text*) *(.rodata*) } > ROM : code
    .bss (NOLOAD) : { *(.bss*) *(COMMON) . = ALIGN(8); bss_end = .; } > RAM : NONE
    .gnu.sgstubs : { *(.gnu.sgstubs*) . = ALIGN(32); } > NSC : gateways
    .ARM.attributes 0 : { *(.ARM.attributes) }
    /DISCARD/ : { *(.comment) *(.ARM.exidx*) }
}
