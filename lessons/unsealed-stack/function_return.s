; The Non-secure image that returns from a call which nobody made.
.org 0x00200080
start:  ldr     r4, keep
        ldr     r5, kept
        movs    r0, #0
        ldr     r1, reveal
        blx     r4              ; the first note: an address of Secure code
        movs    r0, #1
        movs    r1, #0
        blx     r4              ; the second one: the number of an exception, 0 for none
        ldr     r0, back
        mov     lr, r0          ; where `bxns lr` of Secure code will go
        ldr     r0, return
        bx      r0
got:    str     r0, [r5, #0]
stay:   b       stay

.align 4
keep:   .word   0x10008001
kept:   .word   0x20000010
reveal: .word   0x1000005b      ; in the middle of `unlock`, with bit 0 set
back:   .word   got             ; bit 0 clear, as SG leaves it
return: .word   0xfeffffff      ; FNC_RETURN
