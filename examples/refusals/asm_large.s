.org 0xffffffff
.word 0
