; The Secure image: it gives Non-secure code a stack, hands over, and looks at what was refused.
.org 0x10000000
        .word   0x30001000      ; the start of the stack
        .word   reset+1         ; where the core starts, with bit 0 set
        .word   0               ; NMI, which doesn't come
        .word   refused+1       ; HardFault

.org 0x10000040
reset:  ldr     r0, stack
        msr     msp_ns, r0
        ldr     r0, entry
        bxns    r0

; HardFault. It looks, and has Non-secure code go on behind the instruction that was refused.
refused: ldr    r0, sfar
        ldr     r1, [r0, #0]    ; the address that was refused
        mrs     r0, msp_ns      ; where the frame is
        ldr     r1, [r0, #24]   ; the return address: that of the instruction
        ldrh    r2, [r1, #0]    ; its first halfword
        adds    r1, r1, #2
        lsrs    r2, r2, #11
        cmp     r2, #29         ; from 0xe800 on there is a second one
        it      cs
        adds    r1, r1, #2
        str     r1, [r0, #24]
        bx      lr

.align 4
stack:  .word   0x20001000
entry:  .word   0x00200040
sfar:   .word   0xe000ede8
