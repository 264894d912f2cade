; early.s, with another number.
.org 0x10000000
        .word   0x30001000      ; the start of the stack
        .word   reset+1         ; where the core starts, with bit 0 set

.org 0x10000040
reset:  ldr     r0, itns
        movs    r1, #1
        str     r1, [r0, #0]    ; interrupt 0 is Non-secure
        ldr     r0, stack
        msr     msp_ns, r0      ; a stack for Non-secure code
        ldr     r0, entry
        bxns    r0

; R0 has a number of four bytes. Gives 1 in R0 where it is the right one, and else 0.
check:  ldr     r1, number
        movs    r2, #4
next:   movs    r3, r0
        eors    r3, r3, r1
        lsls    r3, r3, #24     ; the lowest byte of both
        bne     refuse
        lsrs    r0, r0, #8
        lsrs    r1, r1, #8
        subs    r2, r2, #1
        bne     next
        movs    r0, #1
        b       leave
refuse: movs    r0, #0
        nop                     ; as long as the other way
leave:  movs    r1, #0
        movs    r2, #0
        movs    r3, #0
        msr     apsr, r1
        bxns    lr

.align 4
itns:   .word   0xe000e380
stack:  .word   0x20001000
entry:  .word   0x00200080
number: .word   0x02010301

; The gateway.
.org 0x10008000
        sg
        b.w     check
