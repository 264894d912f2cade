"""Traces that no run has written, for trying the page that shows them."""

# Lines with further lines below them, which belong to the line above.
FURTHER = """\
0 s N 10000040 4800 ldr r0, [pc, #0] r0=00200040
1 s X 18 fffffff9
  interrupt 2, Secure, priority 32
  word 0 of the frame: 00000001
2 s N 10000100 e7fe b 0x10000100
3 s N 10000100 e7fe b 0x10000100
4 s N 10000100 e7fe b 0x10000100
  interrupt 3 is due
5 s N 10000100 e7fe b 0x10000100
"""

# A handler that returns to Secure code behind a call: what its side's stack pointer is then, no line lists.
RETURNED = """\
0 s N 10000000 4700 bxns r0 sp=20000c00
1 n N 10008000 e97fe97f sg sp=30000800 lr=00200044
2 s X 14 fffffffc
3 n N 00200080 46c0 mov r8, r8 sp=20000ff8
4 n N 00200082 4770 bx lr sp=30000800
5 s N 10000004 4774 bxns lr sp=20000c00
6 n N 00200044 46c0 mov r8, r8
"""

# A frame that can't be written, as the view `full` tells it: the stack pointer leads nowhere.
FRAMELESS = """\
0 s N 10000040 4800 ldr r0, [pc, #0] r0=00200040 sp=00000000
1 s X 3 fffffff9
    fault PRECISERR fffffff8
    HardFault S for BusFault S (FORCED): BusFault is not enabled
    interrupted 10000042 S thread
    frame not written: STKERR ffffffe0
    takes 3 HardFault S, priority -1, DCRS 1
    vector 1000000c 10000101
2 s N 10000100 e7fe b 0x10000100
"""

# Interrupt 2 is interrupted by interrupt 3, whose return ends in the entry of interrupt 4. That this is a tail-chain is
# told only by the return of interrupt 4, to where interrupt 2 was left.
CHAINED = """\
0 s N 10000040 2001 movs r0, #1 r0=00000001
1 s X 18 fffffff9
2 s N 10000100 bf30 wfi
3 s Z
4 s Z
5 s X 19 fffffff1
6 s N 10000200 2003 movs r0, #3 r0=00000003
7 s X 20 fffffff1
8 s N 10000300 2004 movs r0, #4 r0=00000004
9 s N 10000302 4770 bx lr r0=00000001 lr=fffffff9
10 s N 10000102 4770 bx lr lr=00000000
11 s N 10000042 e7fe b 0x10000042
"""

# In the view `ns` a Non-secure handler, entered by tail-chain behind Secure code that was interrupted, calls Secure code.
# It goes on behind the call, and later returns to the Secure code, which returns to Non-secure code.
CALLED = """\
0 S
1 X 21 fffffff8
2 N 00200184 b510 push {r4, lr} sp=28200ff0 [28200ff0].4=00000000 [28200ff4].4=fffffff8
3 N 00200186 f000f9db bl 0x00200540 lr=0020018b
4 N 00200540 f85ff000 ldr.w pc, [pc, #0]
5 S
6 S
7 N 0020018a bf00 nop
8 S
9 S
10 N 00200200 bf00 nop
"""

# Interrupt 3 comes again as its handler returns. It can't be active twice, so its entry is a tail-chain.
AGAIN = """\
0 s N 10000040 2001 movs r0, #1 r0=00000001
1 s X 18 fffffff9
2 s N 10000100 2002 movs r0, #2 r0=00000002
3 s X 19 fffffff1
4 s N 10000200 2003 movs r0, #3 r0=00000003
5 s X 19 fffffff1
6 s N 10000200 2003 movs r0, #3 r0=00000003
"""

# A run that goes on from a state, in a handler that Secure code was interrupted for. A function that it calls returns,
# and then the handler.
LATER = """\
906 n N 0020018e f000f9d7 bl 0x00200540 lr=00200193
907 n N 00200540 4770 bx lr
908 n N 00200192 bf00 nop
909 n N 00200194 bd10 pop {r4, pc} r0=0020057f r4=00200574 r12=00200577 sp=38000fe0 lr=100001c5
910 s N 100001da bf00 nop
"""

# The Non-secure stack pointer has the value of the Secure one, so that the crossing lists none.
EQUAL_STACKS = """\
0 s N 10000040 b082 sub sp, sp, #8 sp=20001000
1 s N 10000042 4704 bxns r0
2 n N 00200040 e7fe b 0x00200040
"""

UNEVEN = """\
0 n N 00200040 b081 sub sp, sp, #4 sp=20000ffc
1 n N 00200042 2800 cmp r0, #0 apsr=60000000
2 n X 21 ffffffb8
"""

LOOP = 40


def body(turn):
    """One turn of Non-secure code that calls a Secure function, and in each eighth turn is interrupted."""
    yield f"n N 00200040 2005 movs r0, #5 r0={turn:08x}"
    for at in range(LOOP):
        yield f"n N {0x200042 + 4 * at:08x} eb000001 add.w r0, r0, r1 r0={turn * LOOP + at:08x}"
    yield "n N 002000f0 4798 blx r3 lr=002000f3"
    if turn % 8 == 0:
        yield "n X 21 ffffffb8"
        yield "n N 00200184 b510 push {r4, lr} sp=28200fd0 [28200fd0].4=00000000 [28200fd4].4=ffffffb8"
        yield f"n N 0020018c 60a3 str r3, [r4, #8] [28200090].4={turn:08x}"
        yield "n N 00200194 bd10 pop {r4, pc} sp=28200ff8"
    yield "n N 10008000 e97fe97f sg sp=30001000 lr=002000f2"
    for at in range(LOOP):
        yield f"s N {0x10008004 + 2 * at:08x} 1840 adds r0, r0, r1 r0={turn * 3 + at:08x}"
    yield "s N 10008100 4774 bxns lr sp=28200ff8"


def write_long(file, lines):
    """A trace of view `all` of so many lines."""
    step = turn = 0
    while step < lines:
        for text in body(turn):
            if step == lines:
                return
            file.write(f"{step} {text}\n")
            step += 1
        turn += 1
