; The Non-secure image: it reads its settings, tries what it may not, and goes past its stack limit.
.org 0x00200040
        mrs     r0, control
        mrs     r2, psplim
        mrs     r3, basepri
        mov     r1, sp
        msr     msp_ns, r1      ; ignored: only Secure code has this name
        mrs     r1, msp_ns      ; reads zero
        mrs     r1, msp
        cpsid   i
        mrs     r4, primask
        movs    r0, #3
        msr     control, r0     ; nPRIV: unprivileged from here on
        movs    r0, #0
        msr     primask, r0     ; ignored
        msr     control, r0     ; ignored
        mrs     r4, primask     ; reads zero
        mrs     r0, control
        ldr     r3, gate
        blx     r3
        sub     sp, sp, #64
        sub     sp, sp, #64     ; SP is the limit
        sub     sp, sp, #4      ; below it
stay:   b       stay            ; isn't reached

gate:   .word   0x10008001
