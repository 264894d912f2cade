; The Non-secure image that calls as it is meant to: with a wrong number, and then with the right one.
.org 0x00200040
start:  ldr     r4, gate
        ldr     r5, kept
        movs    r0, #1
        blx     r4
        str     r0, [r5, #0]
        ldr     r0, number
        blx     r4
        str     r0, [r5, #4]
stay:   b       stay

.align 4
gate:   .word   0x10008001      ; bit 0 set: T stays 1
kept:   .word   0x20000010
number: .word   0x00004711
