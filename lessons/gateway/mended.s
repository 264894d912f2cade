; careless.s with one gateway: `reveal` is reached from `unlock` alone.
.org 0x10000000
        .word   0x30001000      ; the start of the stack
        .word   reset+1         ; where the core starts, with bit 0 set

.org 0x1000001c
        .word   fault+1         ; SecureFault

.org 0x10000040
reset:  ldr     r0, shcsr
        ldr     r1, enable
        str     r1, [r0, #0]    ; SecureFault is taken as such, and not as HardFault
        ldr     r0, stack
        msr     msp_ns, r0      ; a stack for Non-secure code
        ldr     r0, entry
        bxns    r0

; R0 has a number. Gives the key in R0 where it is the right one, and else 0.
unlock: ldr     r1, number
        cmp     r0, r1
        bne     refuse
reveal: ldr     r0, key
        b       leave
refuse: movs    r0, #0
leave:  movs    r1, #0          ; neither the number
        msr     apsr, r1        ; nor what the comparison found goes out
        bxns    lr

; SecureFault: R1 gets what Non-secure code did, and the core stays here.
fault:  ldr     r0, sfsr
        ldr     r1, [r0, #0]
halt:   b       halt

.align 4
shcsr:  .word   0xe000ed24
enable: .word   0x00080000      ; SECUREFAULTENA
sfsr:   .word   0xe000ede4
stack:  .word   0x20001000
entry:  .word   0x00200040
number: .word   0x00004711
key:    .word   0x00c0ffee

; The gateway.
.org 0x10008000
        sg
        b.w     unlock
