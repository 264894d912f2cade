; The Non-secure image of `entries`: a supervisor call and the return from it, again and again.
.org 0x0020002c
        .word   0x00200051      ; the vector of SVCall
.org 0x00200040
        ldr     r0, stack
        mov     sp, r0
again:  svc     #0
        b       again

.org 0x00200050
        bx      lr

.align 4
stack:  .word   0x20008000
