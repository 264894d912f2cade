; A Non-secure image: it copies eight words of which the RAM has only the first six.
.org 0x00200040
        ldr     r0, from
        ldr     r1, to
        ldm     r0!, {r2, r3, r4, r5}
        stm     r1!, {r2, r3, r4, r5}
        ldm     r0!, {r2, r3, r4, r5}   ; the third word is refused
        stm     r1!, {r2, r3, r4, r5}   ; the words of the first copy once more
stay:   b       stay

.align 4
from:   .word   words
to:     .word   0x20000000

; The last 24 bytes of the RAM.
.org 0x20007fe8
words:  .word   0x11111111
        .word   0x22222222
        .word   0x33333333
        .word   0x44444444
        .word   0x55555555
        .word   0x66666666
