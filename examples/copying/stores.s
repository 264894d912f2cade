; fits.s, but the words go to a place 8 bytes further on: the last two lie past the end of the RAM.
.org 0x00200040
        ldr     r0, from
        ldr     r1, to
        ldm     r0!, {r2, r3, r4, r5}
        stm     r1!, {r2, r3, r4, r5}
        ldm     r0!, {r2, r3, r4, r5}
        stm     r1!, {r2, r3, r4, r5}   ; the third word is refused
        ldm.w   r1, {r6, r7}            ; what was stored before it
stay:   b       stay

.align 4
from:   .word   words
to:     .word   0x20007fe8
words:  .word   0x11111111
        .word   0x22222222
        .word   0x33333333
        .word   0x44444444
        .word   0x55555555
        .word   0x66666666
        .word   0x77777777
        .word   0x88888888
