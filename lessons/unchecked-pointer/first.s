; trusting.s with a look at the first byte.
.org 0x10000000
        .word   0x30001000      ; the start of the stack
        .word   reset+1         ; where the core starts, with bit 0 set

.org 0x1000000c
        .word   fault+1         ; HardFault

.org 0x10000040
reset:  ldr     r0, stack
        msr     msp_ns, r0      ; a stack for Non-secure code
        ldr     r0, entry
        bxns    r0

; R0 has the address of the first word, and R1 how many there are. Gives their sum in R0, and 0 in R1; or 0 in R0 and 1
; in R1 where they are refused.
sum:    tta     r2, r0
        lsls    r2, r2, #11     ; NSR, bit 20, becomes bit 31, and so N
        bpl     refuse
        movs    r2, #0
next:   ldr     r3, [r0, #0]
        adds    r2, r2, r3
        adds    r0, r0, #4
        subs    r1, r1, #1
        bne     next
        movs    r0, r2
        b       leave
refuse: movs    r0, #0
        movs    r1, #1
leave:  movs    r2, #0
        movs    r3, #0
        msr     apsr, r3
        bxns    lr

; HardFault: the core stays here.
fault:  b       fault

.align 4
stack:  .word   0x20001000
entry:  .word   0x00200040

; The gateway.
.org 0x10008000
        sg
        b.w     sum

; A key, among the Non-secure RAM.
.org 0x20004000
        .word   0x00c0ffee
