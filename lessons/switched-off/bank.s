; The Non-secure image: a call, and a look at the upper half of the RAM.
.org 0x00200040
start:  ldr     r4, gate
        ldr     r5, kept
        movs    r0, #7
        blx     r4
        ldr     r1, upper
        ldr     r1, [r1, #0]
        stm     r5!, {r0, r1}
stay:   b       stay

.align 4
gate:   .word   0x10008001
kept:   .word   0x20000010
upper:  .word   0x20004000
