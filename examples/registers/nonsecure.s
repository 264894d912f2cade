; The Non-secure image: it reads every system register, writes them, and reads what came of it.
.org 0x00200040
        ldr.w   r8, scs
        ldr.w   r9, marks_at
        ldr.w   r10, alias
        ldr.w   r11, dwt

; What Secure code left. A register that a load doesn't change isn't shown, so each gets a mark before.
        ldm.w   r9, {r0, r1, r2, r3, r4, r5, r6, r7}
        ldr.w   r0, [r8, #0x004]        ; ICTR
        ldr.w   r1, [r8, #0x010]        ; SYST_CSR
        ldr.w   r2, [r8, #0x010]        ; and again: the read cleared COUNTFLAG
        ldr.w   r3, [r8, #0x014]        ; SYST_RVR
        ldr.w   r4, [r8, #0x018]        ; SYST_CVR
        ldr.w   r5, [r8, #0x01c]        ; SYST_CALIB
        ldr.w   r6, [r8, #0x100]        ; NVIC_ISER
        ldr.w   r7, [r8, #0x180]        ; NVIC_ICER
        ldm.w   r9, {r0, r1, r2, r3, r4, r5, r6, r7}
        ldr.w   r0, [r8, #0x200]        ; NVIC_ISPR
        ldr.w   r1, [r8, #0x280]        ; NVIC_ICPR
        ldr.w   r2, [r8, #0x300]        ; NVIC_IABR
        ldr.w   r3, [r8, #0x380]        ; NVIC_ITNS
        ldr.w   r4, [r8, #0x400]        ; NVIC_IPR0
        ldr.w   r5, [r8, #0x404]        ; NVIC_IPR1
        ldr.w   r6, [r8, #0xd00]        ; CPUID
        ldr.w   r7, [r8, #0xd04]        ; ICSR
        ldm.w   r9, {r0, r1, r2, r3, r4, r5, r6, r7}
        ldr.w   r0, [r8, #0xd08]        ; VTOR
        ldr.w   r1, [r8, #0xd0c]        ; AIRCR
        ldr.w   r2, [r8, #0xd14]        ; CCR
        ldr.w   r3, [r8, #0xd18]        ; SHPR1
        ldr.w   r4, [r8, #0xd1c]        ; SHPR2
        ldr.w   r5, [r8, #0xd20]        ; SHPR3
        ldr.w   r6, [r8, #0xd24]        ; SHCSR
        ldr.w   r7, [r8, #0xd28]        ; CFSR
        ldm.w   r9, {r0, r1, r2, r3, r4, r5, r6, r7}
        ldr.w   r0, [r8, #0xd2c]        ; HFSR
        ldr.w   r1, [r8, #0xd34]        ; MMFAR
        ldr.w   r2, [r8, #0xd38]        ; BFAR
        ldr.w   r3, [r8, #0xd90]        ; MPU_TYPE
        ldr.w   r4, [r8, #0xd94]        ; MPU_CTRL
        ldr.w   r5, [r8, #0xd98]        ; MPU_RNR
        ldr.w   r6, [r8, #0xd9c]        ; MPU_RBAR
        ldr.w   r7, [r8, #0xda0]        ; MPU_RLAR
        ldm.w   r9, {r0, r1, r2, r3, r4, r5, r6, r7}
        ldr.w   r0, [r8, #0xda4]        ; MPU_RBAR_A1
        ldr.w   r1, [r8, #0xda8]        ; MPU_RLAR_A1
        ldr.w   r2, [r8, #0xdac]        ; MPU_RBAR_A2
        ldr.w   r3, [r8, #0xdb0]        ; MPU_RLAR_A2
        ldr.w   r4, [r8, #0xdb4]        ; MPU_RBAR_A3
        ldr.w   r5, [r8, #0xdb8]        ; MPU_RLAR_A3
        ldr.w   r6, [r8, #0xdc0]        ; MPU_MAIR0
        ldr.w   r7, [r8, #0xdc4]        ; MPU_MAIR1
        ldm.w   r9, {r0, r1, r2, r3, r4, r5, r6, r7}
        ldr.w   r0, [r8, #0xdd0]        ; SAU_CTRL
        ldr.w   r1, [r8, #0xdd4]        ; SAU_TYPE
        ldr.w   r2, [r8, #0xdd8]        ; SAU_RNR
        ldr.w   r3, [r8, #0xddc]        ; SAU_RBAR
        ldr.w   r4, [r8, #0xde0]        ; SAU_RLAR
        ldr.w   r5, [r8, #0xde4]        ; SFSR
        ldr.w   r6, [r8, #0xde8]        ; SFAR
        ldr.w   r7, [r8, #0xf00]        ; STIR

; Bytes and halfwords of some, and addresses without a register.
        ldm.w   r9, {r0, r1, r2, r3, r4, r5, r6, r7}
        ldrb.w  r0, [r8, #0x402]        ; NVIC_IPR0, of interrupt 2
        ldrb.w  r1, [r8, #0x405]        ; NVIC_IPR1, of interrupt 5, which is Secure
        ldrh.w  r2, [r8, #0xd02]        ; CPUID, upper half
        ldrh.w  r3, [r8, #0xd0e]        ; AIRCR, upper half
        ldrh.w  r4, [r8, #0xd0c]        ; AIRCR, lower half
        ldrb.w  r5, [r8, #0xd19]        ; SHPR1, of BusFault
        ldrb.w  r6, [r8, #0xd1a]        ; SHPR1, of UsageFault
        ldrb.w  r7, [r8, #0x012]        ; SYST_CSR, the byte with COUNTFLAG
        ldm.w   r9, {r0, r1, r2, r3, r4, r5, r6, r7}
        ldr.w   r0, [r10, #0xd00]       ; the alias: it is no register for Non-secure code
        ldr.w   r1, [r10, #0xd04]
        ldr.w   r2, [r10, #0xd14]
        ldrb.w  r3, [r10, #0x403]
        ldr.w   r4, [r8, #0x000]        ; no register
        ldr.w   r5, [r8, #0x008]        ; ACTLR, which isn't kept
        ldr.w   r6, [r8, #0xd10]        ; SCR, which isn't kept
        ldr.w   r7, [r11, #0x000]       ; DWT_CTRL, which isn't kept

; Interrupts: its own take what is written, and Secure ones don't.
        ldm.w   r9, {r0, r1, r2, r3, r4, r5, r6, r7}
        ldr.w   r1, ones
        str.w   r1, [r8, #0x100]        ; NVIC_ISER
        ldr.w   r0, [r8, #0x100]
        movs    r2, #0x44
        str.w   r2, [r8, #0x180]        ; NVIC_ICER: interrupt 2, and 6, which is Secure
        ldr.w   r0, [r8, #0x180]
        str.w   r1, [r8, #0x200]        ; NVIC_ISPR
        ldr.w   r0, [r8, #0x200]
        ldr.w   r0, [r8, #0xd04]        ; ICSR
        str.w   r1, [r8, #0x280]        ; NVIC_ICPR
        ldr.w   r4, [r8, #0x280]
        ldr.w   r0, [r8, #0xd04]        ; ICSR
        movs    r2, #3
        str.w   r2, [r8, #0xf00]        ; STIR: interrupt 3
        movs    r2, #7
        str.w   r2, [r8, #0xf00]        ; STIR: interrupt 7, which is Secure
        ldr.w   r0, [r8, #0x200]        ; NVIC_ISPR
        str.w   r1, [r8, #0x300]        ; NVIC_IABR
        ldr.w   r0, [r8, #0x300]
        str.w   r1, [r8, #0x380]        ; NVIC_ITNS
        ldr.w   r3, [r8, #0x380]
        ldr.w   r2, levels
        str.w   r2, [r8, #0x400]        ; NVIC_IPR0
        ldr.w   r0, [r8, #0x400]
        strb.w  r1, [r8, #0x401]        ; NVIC_IPR0, of interrupt 1
        ldr.w   r0, [r8, #0x400]
        strh.w  r2, [r8, #0x402]        ; NVIC_IPR0, of interrupts 2 and 3
        ldr.w   r0, [r8, #0x400]
        str.w   r2, [r8, #0x404]        ; NVIC_IPR1: Secure interrupts
        ldr.w   r0, [r8, #0x404]
        strb.w  r1, [r8, #0x180]        ; NVIC_ICER, a byte: ignored
        ldr.w   r0, [r8, #0x180]

; System exceptions and their settings.
        ldr.w   r2, pendsvset
        str.w   r2, [r8, #0xd04]        ; ICSR: PENDSVSET
        ldr.w   r0, [r8, #0xd04]
        ldr.w   r2, pendsvclr
        str.w   r2, [r8, #0xd04]        ; ICSR: PENDSVCLR
        ldr.w   r0, [r8, #0xd04]
        ldr.w   r2, vectors
        str.w   r2, [r8, #0xd08]        ; VTOR
        ldr.w   r0, [r8, #0xd08]
        ldr.w   r2, grouping
        str.w   r2, [r8, #0xd0c]        ; AIRCR: PRIGROUP, and PRIS 0 and BFHFNMINS 1
        ldr.w   r0, [r8, #0xd0c]
        str.w   r1, [r8, #0xd0c]        ; AIRCR, without the key: ignored
        ldr.w   r3, [r8, #0xd0c]
        str.w   r1, [r8, #0xd14]        ; CCR
        ldr.w   r0, [r8, #0xd14]
        str.w   r1, [r8, #0xd18]        ; SHPR1
        ldr.w   r0, [r8, #0xd18]
        strb.w  r2, [r8, #0xd1b]        ; SHPR1, of SecureFault
        ldr.w   r3, [r8, #0xd18]
        strh.w  r2, [r8, #0xd22]        ; SHPR3: PendSV and SysTick
        ldr.w   r0, [r8, #0xd20]
        movs    r2, #0
        str.w   r2, [r8, #0xd24]        ; SHCSR
        ldr.w   r0, [r8, #0xd24]
        str.w   r1, [r8, #0xd24]
        ldr.w   r0, [r8, #0xd24]
        str.w   r1, [r8, #0xd28]        ; CFSR
        ldr.w   r0, [r8, #0xd28]
        str.w   r1, [r8, #0xd34]        ; MMFAR
        ldr.w   r0, [r8, #0xd34]
        str.w   r1, [r8, #0xd38]        ; BFAR
        ldr.w   r3, [r8, #0xd38]

; Its MPU: region 5, through the window of region 4.
        movs    r2, #4
        str.w   r2, [r8, #0xd98]        ; MPU_RNR
        ldr.w   r2, base
        str.w   r2, [r8, #0xda4]        ; MPU_RBAR_A1
        ldr.w   r2, last
        str.w   r2, [r8, #0xda8]        ; MPU_RLAR_A1
        movs    r2, #5
        str.w   r2, [r8, #0xd98]        ; MPU_RNR
        ldr.w   r0, [r8, #0xd9c]        ; MPU_RBAR
        ldr.w   r0, [r8, #0xda0]        ; MPU_RLAR
        movs    r2, #9
        str.w   r2, [r8, #0xd98]        ; MPU_RNR: there is no region 9
        str.w   r1, [r8, #0xd9c]        ; MPU_RBAR
        ldr.w   r0, [r8, #0xd9c]
        ldr.w   r0, [r8, #0xd98]        ; MPU_RNR
        str.w   r1, [r8, #0xd94]        ; MPU_CTRL
        ldr.w   r0, [r8, #0xd94]
        str.w   r1, [r8, #0xdc4]        ; MPU_MAIR1
        ldr.w   r0, [r8, #0xdc4]

; Registers that are Secure alone, and the alias.
        ldm.w   r9, {r0, r1, r2, r3, r4, r5, r6, r7}
        ldr.w   r1, ones
        str.w   r1, [r8, #0xdd0]        ; SAU_CTRL
        ldr.w   r0, [r8, #0xdd0]
        str.w   r1, [r8, #0xdd8]        ; SAU_RNR
        str.w   r1, [r8, #0xde0]        ; SAU_RLAR
        ldr.w   r3, [r8, #0xde0]
        str.w   r1, [r8, #0xde8]        ; SFAR
        ldr.w   r4, [r8, #0xde8]
        str.w   r1, [r10, #0xd08]       ; VTOR by the alias
        ldr.w   r5, [r10, #0xd08]
        str.w   r1, [r8, #0xd10]        ; SCR
        ldr.w   r6, [r8, #0xd10]

; SysTick: from 3 to 0, with its exception.
        movs    r2, #3
        str.w   r2, [r8, #0x014]        ; SYST_RVR
        movs    r2, #7
        str.w   r2, [r8, #0x010]        ; SYST_CSR
        str.w   r1, [r8, #0x018]        ; SYST_CVR becomes 0
        ldr.w   r0, [r8, #0x018]
        ldr.w   r3, [r8, #0xd04]        ; ICSR
        ldr.w   r0, [r8, #0x018]
        ldr.w   r0, [r8, #0x018]
        ldr.w   r3, [r8, #0xd04]        ; ICSR: PENDSTSET
        ldr.w   r0, [r8, #0x010]        ; SYST_CSR: COUNTFLAG
        movs    r2, #0
        str.w   r2, [r8, #0x010]        ; SYST_CSR: off
        ldr.w   r2, pendstclr
        str.w   r2, [r8, #0xd04]        ; ICSR: PENDSTCLR
        ldr.w   r3, [r8, #0xd04]

; Secure code looks at its registers.
        ldr.w   r3, gate
        blx     r3
        ldr.w   r4, [r8, #0xd08]        ; VTOR is still its own
stay:   b       stay

.align 4
scs:    .word   0xe000e000
alias:  .word   0xe002e000
dwt:    .word   0xe0001000
ones:   .word   0xffffffff
levels: .word   0x55668877
pendsvset:      .word   0x10000000
pendsvclr:      .word   0x08000000
pendstclr:      .word   0x02000000
vectors:        .word   0x0020017f
grouping:       .word   0x05fa2500
base:   .word   0x20000003
last:   .word   0x20005ff3
gate:   .word   0x10008001
marks_at:       .word   marks
marks:  .word   0xeeeeeeee
        .word   0xeeeeeeee
        .word   0xeeeeeeee
        .word   0xeeeeeeee
        .word   0xeeeeeeee
        .word   0xeeeeeeee
        .word   0xeeeeeeee
        .word   0xeeeeeeee
