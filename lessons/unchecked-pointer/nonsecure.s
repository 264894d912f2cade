; The Non-secure image: it has Secure code add up five ranges of words, and keeps the answers.
.org 0x00200040
start:  ldr     r4, gate
        ldr     r5, kept
        adr     r6, ranges
next:   ldr     r0, [r6, #0]
        ldr     r1, [r6, #4]
        blx     r4
        stm     r5!, {r0, r1}
        adds    r6, r6, #8
        ldr     r0, end
        cmp     r6, r0
        bne     next
stay:   b       stay

.align 4
gate:   .word   0x10008001
kept:   .word   0x20000020
end:    .word   behind

; The first word and the count of each range.
ranges: .word   0x20000010      ; two words of its own
        .word   2
        .word   0x20004000      ; the Secure word
        .word   1
        .word   0x20003ffc      ; a word of its own, and the Secure one behind it
        .word   2
        .word   0x20003ffc      ; the same, and on to a word of its own behind the Secure ones
        .word   10
        .word   0x20007ff8      ; the last two words of the RAM: 4 times the count is 4
        .word   0x40000001
behind:

.org 0x20000010
        .word   0x00000100
        .word   0x00000200
.org 0x20003ffc
        .word   0x00001000
.org 0x20004020
        .word   0x00002000
