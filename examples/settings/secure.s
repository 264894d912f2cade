; The Secure image: it sets the Non-secure side up, hands over, and answers one call.
.org 0x10000000
        .word   0x30001000      ; the start of MSP
        .word   reset+1
        .word   0               ; NMI, which doesn't come
        .word   fault+1         ; HardFault

.org 0x10000040
reset:  cpsid   i               ; PRIMASK: no interrupt comes between
        ldr     r0, own_top
        msr     psp, r0
        movs    r1, #2
        msr     control, r1     ; SPSEL: from here on SP is PSP
        ldr     r0, ns_main
        msr     msp_ns, r0
        msr     control_ns, r1  ; SPSEL of the Non-secure side
        ldr     r0, ns_limit
        msr     psplim_ns, r0
        ldr     r0, ns_process
        msr     sp_ns, r0       ; so SP_NS is PSP_NS
        movs    r0, #64
        msr     basepri_ns, r0
        cpsie   i
        ldr     r0, entry
        bxns    r0

own_top:        .word   0x30000800
ns_main:        .word   0x20001000
ns_limit:       .word   0x20000784      ; PSPLIM_NS takes 0x20000780 of it
ns_process:     .word   0x20000800
entry:          .word   0x00200040

; HardFault: it looks at what Non-secure code did.
fault:  ldr     r0, cfsr
        ldr     r1, [r0, #0]
        mrs     r0, psp_ns
        mrs     r2, primask_ns
        mrs     r3, control
halt:   b       halt
.align 4
cfsr:   .word   0xe002ed28      ; CFSR of the Non-secure side

; The gateway: a function that tells PRIMASK of the Non-secure side.
.org 0x10008000
        sg
        mrs     r4, primask_ns
        bxns    lr
