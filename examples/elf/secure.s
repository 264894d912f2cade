@ The Secure image: it starts the Non-secure one, and counts the calls through its gateway.
        .syntax unified
        .cpu cortex-m33
        .thumb

        .section .vectors, "a"
        .word   0x38001000              @ the Secure stack pointer
        .word   reset + 1               @ where the machine starts

        .section .text, "ax"
        .global reset
        .thumb_func
reset:  ldr     r0, entry               @ where Non-secure code begins, bit 0 clear
        bxns    r0
count:  ldr     r1, cell
        ldr     r0, [r1, #0]
        adds    r0, #1
        str     r0, [r1, #0]
        movs    r1, #0                  @ the address of the counter stays here
        bxns    lr
        .balign 4
entry:  .word   0x08000020
cell:   .word   0x38000000

        .section .gateway, "ax"
        .thumb_func
gate:   sg
        b       count_far
        .balign 4
        .thumb_func
count_far:
        ldr     r2, target
        bx      r2
        .balign 4
target: .word   count + 1
