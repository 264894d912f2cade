; The Secure image: its code is preempted, and so is its handler of interrupt 1.
.org 0x10000000
        .word   0x30001000      ; the start of the stack
        .word   reset+1         ; where the core starts, with bit 0 set

.org 0x10000044
        .word   middle+1        ; interrupt 1

.org 0x10000080
reset:  ldr     r0, itns
        movs    r1, #5
        str     r1, [r0, #0]    ; interrupts 0 and 2 are Non-secure
        ldr     r0, ipr
        ldr     r1, ranks
        str     r1, [r0, #0]    ; priorities: 0xc0 of interrupt 0, 0x80 of 1, 0x40 of 2
        ldr     r0, iser
        movs    r1, #7
        str     r1, [r0, #0]    ; all three are enabled
        ldr     r0, theirs
        msr     msp_ns, r0      ; a stack for Non-secure code
        ldr     r0, own
        msr     psp, r0         ; and one for the code below, as a task has it
        movs    r0, #2
        msr     control, r0     ; which it uses: CONTROL.SPSEL is 1
        push    {r0}            ; SP is no multiple of 8 now

; All its registers have numbers of its own, and so have the flags.
work:   ldr     r0, flags
        msr     apsr, r0        ; N, V and Q are 1
        adr     r0, numbers
        ldm.w   r0, {r1, r2, r3, r4, r5, r6, r7, r8, r9, r10, r11, r12, lr}
        ittee   mi
        mov     r0, r1
        add     r0, r0, r8      ; interrupt 0 comes before this one
        mov     r0, r2
        mov     r0, r3
        ldr     r1, answer
        str     r0, [r1, #0]
stay:   b       stay

; Interrupt 1: it preempts the handler of interrupt 0, and that of interrupt 2 preempts it.
middle: push    {r4, lr}
        movs    r4, #77
        adds    r4, r4, #8
        pop     {r4, pc}

.align 4
itns:   .word   0xe000e380
ipr:    .word   0xe000e400
iser:   .word   0xe000e100
ranks:  .word   0x004080c0
theirs: .word   0x20001000
own:    .word   0x30000800
flags:  .word   0x98000000
answer: .word   0x30000000
numbers:
        .word   0x5ec00001      ; R1
        .word   0x5ec00002
        .word   0x5ec00003
        .word   0x5ec00004
        .word   0x5ec00005
        .word   0x5ec00006
        .word   0x5ec00007
        .word   0x5ec00008
        .word   0x5ec00009
        .word   0x5ec0000a
        .word   0x5ec0000b
        .word   0x5ec0000c      ; R12
        .word   0x5ec0000e      ; LR
