b nowhere
movs r0, #256
