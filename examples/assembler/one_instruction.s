.org 0x00200040
movs r0, #5
