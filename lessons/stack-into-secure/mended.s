; trusting.s, which asks about the stack pointer as about any other address.
.org 0x10000000
        .word   0x30001000      ; the start of the stack
        .word   reset+1         ; where the core starts, with bit 0 set

.org 0x1000001c
        .word   fault+1         ; SecureFault

.org 0x10000040
reset:  ldr     r0, shcsr
        ldr     r1, enable
        str     r1, [r0, #0]    ; SecureFault is taken as such, and not as HardFault
        ldr     r0, stack
        msr     msp_ns, r0      ; a stack for Non-secure code
        ldr     r0, entry
        bxns    r0

; Gives the sum of R0 to R3 and of the word at the caller's stack pointer, or 0 where that is refused.
sum:    adds    r0, r0, r1
        adds    r0, r0, r2
        adds    r0, r0, r3
        mrs     r1, msp_ns
        lsls    r2, r1, #30     ; where it is a multiple of 4, one answer speaks of all bytes of the word
        bne     refuse
        tta     r2, r1
        lsls    r2, r2, #11     ; NSR, bit 20, becomes bit 31, and so N
        bpl     refuse
        ldr     r1, [r1, #0]
        adds    r0, r0, r1
        b       leave
refuse: movs    r0, #0
leave:  movs    r1, #0
        movs    r2, #0
        movs    r3, #0
        msr     apsr, r1
        bxns    lr

; SecureFault: R1 gets what happened, R2 where the Non-secure stack pointer is, and R3 the word there.
fault:  ldr     r0, sfsr
        ldr     r1, [r0, #0]
        mrs     r2, msp_ns
        ldr     r3, [r2, #0]
halt:   b       halt

.align 4
shcsr:  .word   0xe000ed24
enable: .word   0x00080000      ; SECUREFAULTENA
sfsr:   .word   0xe000ede4
stack:  .word   0x20001000
entry:  .word   0x00200080

; The gateway.
.org 0x10008000
        sg
        b.w     sum

; A word that Non-secure code mustn't get.
.org 0x30000100
        .word   0x00c0ffee
