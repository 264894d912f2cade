; The Secure image: a session that a timer ends. Priorities of both sides count alike.
.org 0x10000000
        .word   0x30001000      ; the start of the stack
        .word   reset+1         ; where the core starts, with bit 0 set

.org 0x10000044
        .word   expire+1        ; interrupt 1

.org 0x10000080
reset:  ldr     r0, aircr
        ldr     r1, ranks
        str     r1, [r0, #0]
        ldr     r0, ipr
        movs    r1, #32
        strb    r1, [r0, #1]    ; interrupt 1 has priority 0x20
        ldr     r0, iser
        movs    r1, #2
        str     r1, [r0, #0]    ; it is enabled, and Secure
        ldr     r0, session
        movs    r1, #1
        str     r1, [r0, #0]    ; the session begins
        ldr     r0, stack
        msr     msp_ns, r0      ; a stack for Non-secure code
        ldr     r0, entry
        bxns    r0

; Interrupt 1, a timer: the session is over.
expire: ldr     r0, session
        movs    r1, #0
        str     r1, [r0, #0]
        bx      lr

; Gives the key in R0 while the session lasts, and else 0.
read:   ldr     r1, session
        ldr     r0, [r1, #0]
        cmp     r0, #0
        beq     leave
        ldr     r0, key
leave:  movs    r1, #0
        msr     apsr, r1
        bxns    lr

.align 4
aircr:  .word   0xe000ed0c
ranks:  .word   0x05fa0000      ; PRIS 0, BFHFNMINS 0
ipr:    .word   0xe000e400
iser:   .word   0xe000e100
session: .word  0x30000000
stack:  .word   0x20001000
entry:  .word   0x00200040
key:    .word   0x00c0ffee

; The gateway.
.org 0x10008000
        sg
        b.w     read
