; The Secure image: it keeps half of the Non-secure RAM for itself by the SAU, and switches that on by the wrong bit.
.org 0x10000000
        .word   0x30001000      ; the start of the stack
        .word   reset+1         ; where the core starts, with bit 0 set

.org 0x1000000c
        .word   fault+1         ; HardFault

.org 0x10000040
reset:  ldr     r0, sau
        movs    r1, #0
        str     r1, [r0, #0]    ; SAU_CTRL: off while its regions change
        movs    r1, #1
        str     r1, [r0, #8]    ; SAU_RNR
        ldr     r1, limit
        str     r1, [r0, #16]   ; SAU_RLAR of region 1: the upper half of the RAM becomes Secure
        movs    r1, #2          ; this is the mistake: ALLNS
        str     r1, [r0, #0]    ; SAU_CTRL
        ldr     r0, place
        ldr     r1, key
        str     r1, [r0, #0]
        movs    r1, #0
        ldr     r0, stack
        msr     msp_ns, r0      ; a stack for Non-secure code
        ldr     r0, entry
        bxns    r0

; Gives one more than R0.
count:  adds    r0, r0, #1
        bxns    lr

; HardFault: R1 gets what Non-secure code did, and the core stays here.
fault:  ldr     r0, sfsr
        ldr     r1, [r0, #0]
halt:   b       halt

.align 4
sau:    .word   0xe000edd0
limit:  .word   0x20003fe1
place:  .word   0x20004000
key:    .word   0x00c0ffee
stack:  .word   0x20001000
entry:  .word   0x00200040
sfsr:   .word   0xe000ede4

; The gateway.
.org 0x10008000
        sg
        b.w     count
