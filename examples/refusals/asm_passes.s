movs r0, #256
b nowhere
mvos r0, #5
