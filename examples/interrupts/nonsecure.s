@ What C can't say on the Non-secure side.
        .syntax unified
        .thumb

@ SVCall: gives the frame of the code that called to `serve`, which returns from the exception.
        .section .text.supervisor, "ax"
        .global supervisor
        .type   supervisor, %function
supervisor:
        mrs     r0, msp
        b       serve

@ larger_of(first, second): asks the handler of SVCall for it.
        .section .text.larger_of, "ax"
        .global larger_of
        .type   larger_of, %function
larger_of:
        svc     #7
        bx      lr

@ peek(address): the word there.
        .section .text.peek, "ax"
        .global peek
        .type   peek, %function
peek:
        ldr     r0, [r0]
        bx      lr
