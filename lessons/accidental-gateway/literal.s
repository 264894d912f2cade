; The Non-secure image that calls a constant.
.org 0x00200040
start:  ldr     r4, target
        ldr     r5, kept
        movs    r0, #1          ; a wrong number
        blx     r4
        str     r0, [r5, #0]
stay:   b       stay

.align 4
target: .word   0x10008019      ; `mask` of callable.s, with bit 0 set
kept:   .word   0x20000010
