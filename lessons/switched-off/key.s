; The Non-secure image: it has the key changed to none, and then has it read.
.org 0x00200040
start:  ldr     r4, change
        movs    r0, #0
        blx     r4
        ldr     r4, read
        ldr     r0, secret
        blx     r4
        ldr     r5, kept
        str     r0, [r5, #0]
stay:   b       stay

.align 4
read:   .word   0x10008001
change: .word   0x10008009
secret: .word   0x30000000
kept:   .word   0x20000010
