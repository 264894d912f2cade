; The Non-secure image of `calls`: that of examples/gateway, but it calls again and again.
.org 0x00200040
again:  ldr     r3, gate
        blx     r3
        .half   0x3001          ; adds r0, r0, #1 with 8 bits for the constant
        b       again

gate:   .word   0x10008001
