; The Secure image: a function that keeps notes for its caller, and one that gives a key for the right number. Each of
; them is right by itself. The stack is empty where the notes begin, and nothing lies between.
.org 0x10000000
        .word   0x30001000      ; the start of the stack
        .word   reset+1         ; where the core starts, with bit 0 set

.org 0x1000000c
        .word   fault+1         ; HardFault

.org 0x1000001c
        .word   fault+1         ; SecureFault

; R0 has a place below 32, and R1 a word to keep there.
.org 0x10000040
keep:   cmp     r0, #32
        bcs     away
        lsls    r0, r0, #2
        ldr     r2, notes
        str     r1, [r2, r0]
away:   movs    r0, #0
        movs    r2, #0
        msr     apsr, r2
        bxns    lr

; R0 has a number. Gives the key in R0 where it is the right one, and else 0.
unlock: ldr     r1, number
        cmp     r0, r1
        bne     refuse
reveal: ldr     r0, key
        b       leave
refuse: movs    r0, #0
leave:  movs    r1, #0          ; neither the number
        msr     apsr, r1        ; nor what the comparison found goes out
        bxns    lr

; HardFault and SecureFault: R1 and R2 get the reason, and the core stays here.
fault:  ldr     r0, sfsr
        ldr     r1, [r0, #0]
        ldr     r0, cfsr
        ldr     r2, [r0, #0]
halt:   b       halt

reset:  ldr     r0, shcsr
        ldr     r1, enable
        str     r1, [r0, #0]    ; SecureFault is taken as such, and not as HardFault
        movs    r1, #0
        ldr     r0, stack
        msr     msp_ns, r0      ; a stack for Non-secure code
        ldr     r0, entry
        bxns    r0

.align 4
notes:  .word   0x30001000      ; 32 words
number: .word   0x00004711
key:    .word   0x00c0ffee
sfsr:   .word   0xe000ede4
cfsr:   .word   0xe002ed28      ; CFSR of the Non-secure side
shcsr:  .word   0xe000ed24
enable: .word   0x00080000      ; SECUREFAULTENA
stack:  .word   0x20001000
entry:  .word   0x00200080

; The gateways.
.org 0x10008000
        sg
        b.w     keep
        sg
        b.w     unlock
