; The Secure image: its functions run without privilege, and its MPU keeps the key from them. It is switched off to change
; the key, and on one of two ways not on again.
.org 0x10000000
        .word   0x30001000      ; the start of the stack
        .word   reset+1         ; where the core starts, with bit 0 set

.org 0x1000000c
        .word   fault+1         ; HardFault

.org 0x1000002c
        .word   serve+1         ; SVCall

.org 0x10000040
reset:  ldr     r0, mpu
        adr     r1, regions
        movs    r2, #0
next:   str     r2, [r0, #4]    ; MPU_RNR
        ldr     r3, [r1, #0]
        str     r3, [r0, #8]    ; MPU_RBAR
        ldr     r3, [r1, #4]
        str     r3, [r0, #12]   ; MPU_RLAR
        adds    r1, r1, #8
        adds    r2, r2, #1
        cmp     r2, #4
        bne     next
        movs    r1, #5
        str     r1, [r0, #0]    ; MPU_CTRL: ENABLE and PRIVDEFENA
        ldr     r0, stack
        msr     msp_ns, r0      ; a stack for Non-secure code
        movs    r1, #1
        msr     control, r1     ; nPRIV: from here on it has no privilege
        movs    r1, #0
        ldr     r0, entry
        bxns    r0

; R0 has an address. Gives the word there, without a look at it.
read:   ldr     r0, [r0, #0]
        bxns    lr

; R0 has a new key. Has it written by code with privilege.
change: svc     #0
        bxns    lr

; SVCall: the key is read-only, so the MPU is off while it changes. 0 is no key.
serve:  ldr     r2, mpu
        movs    r3, #0
        str     r3, [r2, #0]    ; MPU_CTRL
        cmp     r0, #0
        beq     done            ; this is the mistake
        ldr     r1, place
        str     r0, [r1, #0]
        movs    r3, #5
        str     r3, [r2, #0]
done:   bx      lr

; HardFault: R1 gets the reason, and the core stays here.
fault:  ldr     r0, cfsr
        ldr     r1, [r0, #0]
halt:   b       halt

.align 4
mpu:    .word   0xe000ed94
place:  .word   0x30000000
stack:  .word   0x20001000
entry:  .word   0x00200040
cfsr:   .word   0xe000ed28

; Base and limit of the regions of the MPU.
regions: .word  0x10000006      ; code and gateways: all may read it and run it
        .word   0x1000ffe1
        .word   0x20000003      ; the Non-secure RAM: all may read and write it
        .word   0x20007fe1
        .word   0x30000803      ; the stack: all may read and write it
        .word   0x30000fe1
        .word   0x30000005      ; the key: code with privilege may read it
        .word   0x30000001

; The gateways.
.org 0x10008000
        sg
        b.w     read
        sg
        b.w     change

; The key.
.org 0x30000000
        .word   0x00c0ffee
