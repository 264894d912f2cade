; The Non-secure image of `data`: sums, shifts, products and fields in IT blocks, 16 instructions a turn.
.org 0x00200040
        movs    r0, #1
        movs    r1, #7
        movs    r2, #0
        movs    r6, #0
again:  adds    r0, r0, r1
        eors    r2, r2, r0
        lsls    r3, r0, #3
        cmp     r2, r3
        ite     hi
        subs    r4, r2, r3
        adds    r4, r3, r1
        muls    r4, r0, r4
        ubfx    r5, r4, #4, #12
        tst     r5, r1
        itt     eq
        adds    r6, r6, #1
        mvns    r2, r2
        lsrs    r7, r4, #5
        orrs    r7, r7, r5
        b       again
