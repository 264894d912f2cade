; The Non-secure image that returns from its own exception to Secure code which nobody interrupted.
.org 0x0020002c
        .word   served+1        ; SVCall

.org 0x00200080
start:  ldr     r4, keep
        ldr     r5, kept
        adr     r6, frames
        movs    r7, #0
next:   movs    r0, r7
        ldr     r1, [r6, #0]
        blx     r4              ; a note for each word of the two frames
        adds    r6, r6, #4
        adds    r7, r7, #1
        cmp     r7, #18
        bne     next
        svc     #0
got:    str     r0, [r5, #0]
stay:   b       stay

; SVCall: it doesn't return to where it came from.
served: ldr     r0, return
        bx      r0

.align 4
keep:   .word   0x10008001
kept:   .word   0x20000010
return: .word   0xfffffff8      ; EXC_RETURN: to Secure code in Thread mode, by both frames

; The frames that an interrupt of Secure code leaves on its stack.
frames: .word   0xfefa125b      ; the integrity signature
        .word   0
        .word   0               ; R4
        .word   0x20000010      ; R5, which `got` uses
        .word   0               ; R6
        .word   0               ; R7
        .word   0               ; R8
        .word   0               ; R9
        .word   0               ; R10
        .word   0               ; R11
        .word   0               ; R0
        .word   0               ; R1
        .word   0               ; R2
        .word   0               ; R3
        .word   0               ; R12
        .word   got             ; LR: where `bxns lr` of Secure code will go, bit 0 clear as SG leaves it
        .word   0x1000005a      ; the return address: in the middle of `unlock`
        .word   0x01000000      ; RETPSR: T is 1, and no exception goes on
