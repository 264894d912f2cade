loop: adds r0, r0, #1
b loop
loop: adds r1, r1, #1
b loop
