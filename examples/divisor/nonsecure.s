; The Non-secure image: it leaves the greatest common divisor of R0 and R1 in R0.
.org 0x00200040
        movs    r0, #30
        movs    r1, #12
again:  cmp     r0, r1
        ite     gt
        subs    r0, r0, r1      ; where R0 is greater
        subs    r1, r1, r0      ; else
        bne     again
stay:   b       stay
