.text
movs r0, #5
