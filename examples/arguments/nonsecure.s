; The Non-secure image: it has Secure code read three words, and keeps the answers in its RAM.
.org 0x00200040
        ldr     r4, gate
        ldr     r5, kept
        ldr     r0, good
        blx     r4
        stm     r5!, {r0, r1}
        ldr     r0, secret
        blx     r4
        stm     r5!, {r0, r1}
        ldr     r0, edge
        blx     r4
        stm     r5!, {r0, r1}
stay:   b       stay

.align 4
gate:   .word   0x10008001
kept:   .word   0x20000020
good:   .word   0x20000010      ; a word of Non-secure RAM
secret: .word   0x30000000      ; a word of Secure RAM
edge:   .word   0x20007ffe      ; begins in Non-secure RAM and ends past it

.org 0x20000010
        .word   0x12345678
