.org 0x00200040
mvos r0, #5
