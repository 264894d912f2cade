@ Where both images start: the data that C code expects in RAM are copied there. newlib's `_start` clears the rest of
@ the RAM that C code uses, and calls `main`.
        .syntax unified
        .thumb

        .section .text.start, "ax"
        .global reset
        .type   reset, %function
reset:
        ldr     r1, =data_image
        ldr     r2, =data_begin
        ldr     r3, =data_end
copy:   cmp     r2, r3
        bhs     copied
        ldr     r0, [r1], #4
        str     r0, [r2], #4
        b       copy
copied: b       _start
