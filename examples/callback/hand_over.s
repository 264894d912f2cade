@ hand_over(stack, entry): gives Non-secure code its main stack, and goes to it.
        .syntax unified
        .thumb

        .section .text.hand_over, "ax"
        .global hand_over
        .type   hand_over, %function
hand_over:
        msr     msp_ns, r0
        bic     r1, r1, #1              @ bit 0 clear: to Non-secure state
        movs    r0, #0                  @ the other registers that C code may have used
        mov     r2, r0
        mov     r3, r0
        mov     r12, r0
        mov     lr, r0
        bxns    r1
