@ hand_over(seal, stack, entry): seals the Secure stack, gives Non-secure code its main stack, and goes to it.
        .syntax unified
        .thumb

        .section .text.hand_over, "ax"
        .global hand_over
        .type   hand_over, %function
hand_over:
        ldrd    r3, r0, [r0]
        push    {r0, r3}
        msr     msp_ns, r1
        bic     r2, r2, #1              @ bit 0 clear: to Non-secure state
        movs    r0, #0                  @ the other registers that C code may have used
        mov     r1, r0
        mov     r3, r0
        mov     r12, r0
        mov     lr, r0
        msr     apsr_nzcvq, r0
        bxns    r2
