@ The Non-secure image: it calls the gateway and keeps what it answers.
        .syntax unified
        .cpu cortex-m33
        .thumb

        .section .text, "ax"
        .global main
        .thumb_func
main:   ldr     r3, gate
        ldr     r4, kept
again:  blx     r3
        str     r0, [r4, #0]
        subs    r0, #1
        b       again
        .balign 4
gate:   .word   0x0c004001
kept:   .word   0x28000000
