; A Non-secure image: it copies eight words downwards, the last four first, past the start of its RAM.
.org 0x00200040
        ldr     r0, from
        ldr     r1, to
        ldmdb   r0!, {r2, r3, r4, r5}
        stmdb   r1!, {r2, r3, r4, r5}
        ldmdb   r0!, {r2, r3, r4, r5}
        stmdb   r1!, {r2, r3, r4, r5}   ; the first word is refused already
        ldmdb   r1, {r2, r3}            ; nothing was stored
stay:   b       stay

.align 4
from:   .word   past
to:     .word   0x20000018
words:  .word   0x11111111
        .word   0x22222222
        .word   0x33333333
        .word   0x44444444
        .word   0x55555555
        .word   0x66666666
        .word   0x77777777
        .word   0x88888888
past:                                   ; where the words end
