; The Non-secure image: it calls the gateway, adds 1 to what that answers, and stays where it is.

.org 0x00200040
        ldr     r3, gate
        blx     r3
        .half   0x3001          ; adds r0, r0, #1 with 8 bits for the constant: see README.md
stay:   b       stay

gate:   .word   0x10008001      ; the address of sg, with bit 0 set so that T stays 1
