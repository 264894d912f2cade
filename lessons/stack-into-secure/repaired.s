; The Non-secure image with two stacks: it runs on the one, and the other points at a Secure word.
.org 0x00200040
        .word   onward+1        ; interrupt 0

.org 0x00200080
start:  ldr     r0, iser
        movs    r1, #1
        str     r1, [r0, #0]    ; interrupt 0 is enabled
        ldr     r0, stack
        msr     psp, r0
        movs    r0, #2
        msr     control, r0     ; SPSEL: from here on SP is PSP
        ldr     r1, secret
        msr     msp, r1
        ldr     r5, kept
        ldr     r0, [r1, #0]    ; this faults
        str     r0, [r5, #0]
stay:   b       stay

; Interrupt 0: it has the code go on behind the instruction that faults again and again.
onward: mrs     r0, psp
        ldr     r1, [r0, #24]
        adds    r1, r1, #2
        str     r1, [r0, #24]
        bx      lr

.align 4
iser:   .word   0xe000e100
stack:  .word   0x20001000
secret: .word   0x30000100
kept:   .word   0x20000010
