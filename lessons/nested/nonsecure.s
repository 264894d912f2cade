; The Non-secure image: two handlers that leave none of R0 to R12 as it was.
.org 0x00200040
        .word   outer+1         ; interrupt 0
        .word   0
        .word   inner+1         ; interrupt 2

.org 0x00200080
outer:  adr     r0, first
        ldm.w   r0, {r0, r1, r2, r3, r4, r5, r6, r7, r8, r9, r10, r11, r12}
        cmp     r0, r0
        nop                     ; interrupt 1 comes before this one
        bx      lr

inner:  adr     r0, second
        ldm.w   r0, {r0, r1, r2, r3, r4, r5, r6, r7, r8, r9, r10, r11, r12}
        cmp     r0, r0
        bx      lr

.align 4
first:
        .word   0x0a000000
        .word   0x0a000001
        .word   0x0a000002
        .word   0x0a000003
        .word   0x0a000004
        .word   0x0a000005
        .word   0x0a000006
        .word   0x0a000007
        .word   0x0a000008
        .word   0x0a000009
        .word   0x0a00000a
        .word   0x0a00000b
        .word   0x0a00000c
second:
        .word   0x0c000000
        .word   0x0c000001
        .word   0x0c000002
        .word   0x0c000003
        .word   0x0c000004
        .word   0x0c000005
        .word   0x0c000006
        .word   0x0c000007
        .word   0x0c000008
        .word   0x0c000009
        .word   0x0c00000a
        .word   0x0c00000b
        .word   0x0c00000c
