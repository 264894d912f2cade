; secure.s with other private values: what Non-secure code is shown is the same.
.org 0x10000000
        .word   0x30003000      ; the start of MSP
        .word   reset+1

.org 0x10000040
reset:  cpsid   i               ; PRIMASK: what pends stays pending
        ldr     r0, process
        msr     psp, r0
        ldr     r0, limit
        msr     msplim, r0
        ldr     r0, stack
        msr     control, r0
        ldr     r0, top_ns
        msr     msp_ns, r0
        ldr     r0, from        ; the table's start
        ldr     r3, to          ; and its end
write:  ldm     r0!, {r1, r2}   ; an address and a word
        str     r2, [r1, #0]
        cmp     r0, r3
        bne     write
        movs    r1, #0          ; what it knows stays here
        movs    r2, #0
        movs    r3, #0
        ldr     r0, entry
        bxns    r0

; What Secure code sees at the same addresses.
look:   ldr     r1, scs
        ldr.w   r0, [r1, #0x010]        ; SYST_CSR
        ldr.w   r0, [r1, #0x100]        ; ISER
        ldr.w   r0, [r1, #0x200]        ; ISPR
        ldr.w   r0, [r1, #0x380]        ; ITNS
        ldr.w   r0, [r1, #0x400]        ; IPR0
        ldr.w   r0, [r1, #0x404]        ; IPR1
        ldr.w   r0, [r1, #0xd04]        ; ICSR
        ldr.w   r0, [r1, #0xd08]        ; VTOR
        ldr.w   r0, [r1, #0xd0c]        ; AIRCR
        ldr.w   r0, [r1, #0xd14]        ; CCR
        ldr.w   r0, [r1, #0xd18]        ; SHPR1
        ldr.w   r0, [r1, #0xd24]        ; SHCSR
        ldr.w   r0, [r1, #0xd34]        ; MMFAR
        ldr.w   r0, [r1, #0xd38]        ; BFAR
        ldr.w   r0, [r1, #0xd94]        ; MPU_CTRL
        ldr.w   r0, [r1, #0xda0]        ; MPU_RLAR
        ldr.w   r0, [r1, #0xdd0]        ; SAU_CTRL
        ldr.w   r0, [r1, #0xde0]        ; SAU_RLAR
        ldr.w   r0, [r1, #0xde8]        ; SFAR
        movs    r0, #0
        movs    r1, #0
        bxns    lr

process:        .word   0x30002800
limit:          .word   0x30002000
stack:          .word   0x00000002      ; CONTROL: SP is PSP
top_ns:         .word   0x20006000
from:           .word   table
to:             .word   end
entry:          .word   0x00200040
scs:            .word   0xe000e000

; An address and a word each.
.org 0x10000200
table:
        .word   0xe000e380      ; ITNS: interrupts 0 to 3 are Non-secure
        .word   0x0000000f
        .word   0xe000e400      ; IPR0: their priorities
        .word   0x40302010
        .word   0xe000e404      ; IPR1: those of 4 to 7, which are Secure
        .word   0x70605040
        .word   0xe000e100      ; ISER: 0, 4 and 6 are enabled
        .word   0x00000051
        .word   0xe000e200      ; ISPR: 4 and 5 pend
        .word   0x00000030
        .word   0xe000ed18      ; SHPR1
        .word   0x10203040
        .word   0xe000ed1c      ; SHPR2
        .word   0x50000000
        .word   0xe000ed20      ; SHPR3
        .word   0x80f00000
        .word   0xe000ed24      ; SHCSR: all four fault handlers are enabled
        .word   0x000f0000
        .word   0xe000ed04      ; ICSR: PendSV pends
        .word   0x10000000
        .word   0xe000e014      ; SYST_RVR
        .word   999
        .word   0xe000e010      ; SYST_CSR: counts, without TICKINT
        .word   5
        .word   0xe000ed08      ; VTOR
        .word   0x10000100
        .word   0xe000ed14      ; CCR
        .word   0x00000008
        .word   0xe000ed34      ; MMFAR
        .word   0x3000fff0
        .word   0xe000ed38      ; BFAR
        .word   0x20000040
        .word   0xe000ede8      ; SFAR
        .word   0x00200044
        .word   0xe000ed98      ; MPU_RNR
        .word   6
        .word   0xe000ed9c      ; MPU_RBAR
        .word   0x30004002
        .word   0xe000eda0      ; MPU_RLAR
        .word   0x30007fe3
        .word   0xe000edc0      ; MPU_MAIR0
        .word   0x12345678
        .word   0xe000ed94      ; MPU_CTRL
        .word   7
        .word   0xe000edd8      ; SAU_RNR: the last page of the RAM is Secure from here on
        .word   1
        .word   0xe000ede0      ; SAU_RLAR
        .word   0x20006fe1
        .word   0x30000000      ; a secret
        .word   0x0badc0de
        .word   0xe002e014      ; SYST_RVR_NS: from here on through the alias
        .word   49
        .word   0xe002e010      ; SYST_CSR_NS
        .word   5
        .word   0xe002ed14      ; CCR_NS
        .word   0x00000010
        .word   0xe002ed18      ; SHPR1_NS
        .word   0x00700080
        .word   0xe002ed1c      ; SHPR2_NS
        .word   0x60000000
        .word   0xe002ed24      ; SHCSR_NS
        .word   0x00050000
        .word   0xe002ed34      ; MMFAR_NS
        .word   0x20000124
        .word   0xe002ed98      ; MPU_RNR_NS: region 0: the flash, read only
        .word   0
        .word   0xe002ed9c      ; MPU_RBAR_NS
        .word   0x00200006
        .word   0xe002eda0      ; MPU_RLAR_NS
        .word   0x0020ffe1
        .word   0xe002edc0      ; MPU_MAIR0_NS
        .word   0x000000ff
        .word   0xe002ed94      ; MPU_CTRL_NS: on, with PRIVDEFENA
        .word   5
        .word   0xe000ed0c      ; AIRCR: PRIS is 1, BFHFNMINS is 0, PRIGROUP is 3
        .word   0x05fa4300
end:

; The gateway.
.org 0x10008000
        sg
        b.w     look
