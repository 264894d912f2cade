@ hand_over(seal, stack, entry, control): seals the Secure main stack, gives Non-secure code its own, sets CONTROL, and
@ goes to Non-secure code.
        .syntax unified
        .thumb

        .section .text.hand_over, "ax"
        .global hand_over
        .type   hand_over, %function
hand_over:
        ldrd    r12, r0, [r0]
        push    {r0, r12}
        msr     control, r3             @ with SPSEL 1 Thread mode has PSP from here on
        isb
        msr     msp_ns, r1
        bic     r2, r2, #1              @ bit 0 clear: to Non-secure state
        movs    r0, #0                  @ the other registers that C code may have used
        mov     r1, r0
        .irp    n, r3, r4, r5, r6, r7, r8, r9, r10, r11, r12, lr
        mov     \n, r0
        .endr
        msr     apsr_nzcvq, r0
        bxns    r2
