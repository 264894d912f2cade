@ What C can't say on the Secure side.
        .syntax unified
        .thumb

@ hand_over(stack, entry): gives Non-secure code its main stack, and goes to it.
        .section .text.hand_over, "ax"
        .global hand_over
        .type   hand_over, %function
hand_over:
        msr     msp_ns, r0
        bic     r1, r1, #1              @ bit 0 clear: to Non-secure state
        movs    r0, #0                  @ the other registers may tell something of Secure code
        .irp    n, r2, r3, r4, r5, r6, r7, r8, r9, r10, r11, r12, lr
        mov     \n, r0
        .endr
        msr     apsr_nzcvq, r0
        bxns    r1

@ SecureFault: gives the frame of the code that faulted to `refuse`, which returns from the exception.
        .section .text.secure_fault, "ax"
        .global secure_fault
        .type   secure_fault, %function
secure_fault:
        mrs     r0, msp_ns
        b       refuse
