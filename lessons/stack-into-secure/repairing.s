; The Secure image: its handler of SecureFault has the code that faulted go on behind the instruction, with 0 in R0.
.org 0x10000000
        .word   0x30001000      ; the start of the stack
        .word   reset+1         ; where the core starts, with bit 0 set

.org 0x1000001c
        .word   fault+1         ; SecureFault

.org 0x10000080
reset:  ldr     r0, shcsr
        ldr     r1, enable
        str     r1, [r0, #0]    ; SecureFault is taken as such, and not as HardFault
        ldr     r0, itns
        movs    r1, #1
        str     r1, [r0, #0]    ; interrupt 0 is Non-secure
        ldr     r0, stack
        msr     msp_ns, r0      ; a stack for Non-secure code
        ldr     r0, entry
        bxns    r0

; SecureFault. The instruction that faulted is one of 16 bits.
fault:  mrs     r0, msp_ns      ; this is the mistake
        movs    r1, #0
        str     r1, [r0, #0]    ; R0 of the frame
        ldr     r1, [r0, #24]
        adds    r1, r1, #2
        str     r1, [r0, #24]   ; the return address
        bx      lr

.align 4
shcsr:  .word   0xe000ed24
enable: .word   0x00080000      ; SECUREFAULTENA
itns:   .word   0xe000e380
stack:  .word   0x20001000
entry:  .word   0x00200080

; How many wrong numbers there were. After three no number is asked any more.
.org 0x30000100
        .word   3
