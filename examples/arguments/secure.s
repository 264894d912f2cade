; The Secure image: it offers a function that reads a word for Non-secure code, and looks first where the word is.
.org 0x10000000
        .word   0x30001000      ; the start of the stack
        .word   reset+1         ; where the core starts, with bit 0 set

.org 0x10000040
reset:  ldr     r0, entry
        bxns    r0
entry:  .word   0x00200040

; R0 has the address of a word. Gives the word in R0 and 0 in R1, or 0 in R0 and 1 in R1 where it is refused.
read:   adds    r1, r0, #3      ; its last byte
        tta     r2, r0
        tta     r3, r1
        cmp     r2, r3          ; both bytes in the same regions, with the same permissions
        bne     refuse
        lsls    r3, r2, #11     ; NSR, bit 20, becomes bit 31, and so N
        bpl     refuse
        ldr     r0, [r0, #0]
        movs    r1, #0
        b       leave
refuse: movs    r0, #0
        movs    r1, #1
leave:  movs    r2, #0          ; the answers of TTA stay here
        movs    r3, #0
        msr     apsr, r3        ; and so do the flags
        bxns    lr

; The gateway alone is callable.
.org 0x10008000
        sg
        b.w     read

; A word that Non-secure code mustn't get.
.org 0x30000000
        .word   0x00c0ffee
