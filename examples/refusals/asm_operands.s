movs r0, #5
adds r0, #1
