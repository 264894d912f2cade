; The Secure image: it hands over to Non-secure code, which may call a function of it.

; The vector table: the start of the stack, and where the core starts. Bit 0 of a start is the
; value of T, which is 1 for Thumb code.
.org 0x10000000
        .word   0x30001000
        .word   reset+1

.org 0x10000040
reset:  ldr     r0, entry
        bxns    r0              ; bit 0 of R0 is 0, so the core goes to Non-secure state
entry:  .word   0x00200040

; The gateway, in memory that Non-secure code may call into.
.org 0x10008000
        sg
        movs    r0, #42
        bxns    lr
