; once.s with another secret.
.org 0x10000000
        .word   0x30001000      ; the start of the stack
        .word   reset+1         ; where the core starts, with bit 0 set

.org 0x10000040
reset:  ldr     r0, itns
        movs    r1, #1
        str     r1, [r0, #0]    ; interrupt 0 belongs to the Non-secure side
        ldr     r0, stack
        msr     msp_ns, r0      ; a stack for Non-secure code
        ldr     r0, entry
        bxns    r0

; R0 has the address of a request, which is the address of a word. Gives the word in R0 and 0 in R1, or 0 in R0 and 1 in
; R1 where it is refused.
read:   cpsid   i               ; no interrupt is taken up to `leave`
        lsls    r2, r0, #30     ; where both addresses are multiples of 4, one answer speaks of all bytes of a word
        bne     refuse
        tta     r2, r0
        lsls    r2, r2, #11     ; NSR, bit 20, becomes bit 31, and so N
        bpl     refuse
        ldr     r2, [r0, #0]    ; what is looked at
        mov     r1, r2          ; and what is used
        lsls    r3, r2, #30
        bne     refuse
        tta     r3, r2
        lsls    r3, r3, #11
        bpl     refuse
        ldr     r0, [r1, #0]
        movs    r1, #0
        b       leave
refuse: movs    r0, #0
        movs    r1, #1
leave:  cpsie   i
        movs    r2, #0
        movs    r3, #0
        msr     apsr, r2
        bxns    lr

.align 4
itns:   .word   0xe000e380
stack:  .word   0x20001000
entry:  .word   0x00200080

; The gateway.
.org 0x10008000
        sg
        b.w     read

; A word that Non-secure code mustn't get.
.org 0x30000000
        .word   0x0badcafe
