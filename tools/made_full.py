"""Traces of view `full` that were written by hand, and each of their lines changed in one place after the other.

Each trace has a board, an image of both sides, a script, and its lines; they were worked out from docs/PROFILE.md. They agree with what
is asked of a trace, and none of the changed ones does.
"""

from full_lines import GRAMMAR, INDENT, Verdict, told_of
from full_machine import Board, Core, DEMO, Memory
from full_runs import events_of, grouped
from full_steps import Run, line_of
from full_system import System

# A board with a mover, of Secure memory.
MOVER_BOARD = """
secure_vtor = 0x10000000
nonsecure_vtor = 0x00200000
interrupts = 8
mover = true
[[region]]
base = 0x10000000
size = 0x8000
kind = "rom"
side = "secure"
[[region]]
base = 0x30000000
size = 0x8000
kind = "ram"
side = "secure"
"""

# Secure code is interrupted by the Non-secure interrupt 0, calls Non-secure code and returns to it, and is called by a
# gateway; then a division by 0 becomes HardFault, whose handler locks.
CROSSED = (b"10000000 0010003041000010\n1000000c 81000010\n10000064 08ed00e010012000\n00200040 01012000\n00200114 01800010\n", "4 irq 0", """\
0 s N 10000040 4808 ldr r0, [pc, #32] r0=e000ed08
    load 10000064 word e000ed08
1 s N 10000042 6801 ldr r1, [r0, #0] r1=10000000
    load e000ed08 word 10000000 VTOR
2 s N 10000044 6001 str r1, [r0, #0] [e000ed08].4=10000000
    store e000ed08 VTOR
3 s N 10000046 f04f0c2a mov.w r12, #42 r12=0000002a
4 s X 16 fffffff8
    event irq 0
    interrupted 1000004a S thread
    frame MSP_S 30000fe0 r0=e000ed08 r1=10000000 r2=00000000 r3=00000000 r12=0000002a lr=ffffffff pc=1000004a retpsr=01000000
    additional frame MSP_S 30000fb8 fefa125b 00000000 r4=00000000 r5=00000000 r6=00000000 r7=00000000 r8=00000000 r9=00000000 r10=00000000 r11=00000000
    takes 16 interrupt 0 NS, priority 0, DCRS 1
    vector 00200040 00200101
    cleared r0-r12, flags
    crossing preempt, hands over nothing
5 n N 00200100 4770 bx lr r0=e000ed08 r1=10000000 r12=0000002a sp=30001000 lr=ffffffff
    EXC_RETURN fffffff8: ES 0 S 1 DCRS 1 thread SPSEL 0
    from additional frame MSP_S 30000fb8 fefa125b 00000000 r4=00000000 r5=00000000 r6=00000000 r7=00000000 r8=00000000 r9=00000000 r10=00000000 r11=00000000
    from frame MSP_S 30000fe0 r0=e000ed08 r1=10000000 r2=00000000 r3=00000000 r12=0000002a lr=ffffffff pc=1000004a retpsr=01000000
    goes on at 1000004a S thread
6 s N 1000004a 4807 ldr r0, [pc, #28] r0=00200110
    load 10000068 word 00200110
7 s N 1000004c 4784 blxns r0 sp=00000000 lr=feffffff [30000ff8].4=1000004f [30000ffc].4=00000000
    call frame 30000ff8: return address 1000004f, IPSR 0
    crossing call, hands over r0=00200110 r1=10000000 r2=00000000 r3=00000000 r4=00000000 r5=00000000 r6=00000000 r7=00000000 r8=00000000 r9=00000000 r10=00000000 r11=00000000 r12=0000002a flags=00000000 it=00 t=1 pc=00200110
8 n N 00200110 4770 bx lr sp=30001000
    FNC_RETURN feffffff: call frame 30000ff8: return address 1000004f, IPSR 0
9 s N 1000004e 4704 bxns r0 sp=00000000
    crossing return, hands over r0=00200110 r1=10000000 r2=00000000 r3=00000000 r4=00000000 r5=00000000 r6=00000000 r7=00000000 r8=00000000 r9=00000000 r10=00000000 r11=00000000 r12=0000002a lr=feffffff flags=00000000 it=00 t=1 pc=00200110
10 n N 00200110 f85ff000 ldr.w pc, [pc, #0]
    load 00200114 word 10008001
11 n N 10008000 e97fe97f sg sp=30001000 lr=fefffffe
    SG from 10008000: Secure code goes on at 10008004
12 s X 3 fffffff9
    fault DIVBYZERO
    HardFault S for UsageFault S (FORCED): UsageFault is not enabled
    interrupted 10008004 S thread
    frame MSP_S 30000fe0 r0=00200110 r1=10000000 r2=00000000 r3=00000000 r12=0000002a lr=fefffffe pc=10008004 retpsr=01000000
    takes 3 HardFault S, priority -1, DCRS 1
    vector 1000000c 10000081
13 s L
    fault UNDEFINSTR
    lockup: UsageFault S can't be taken, nor HardFault: the code has priority -1
14 s L
""")

# A supervisor call, whose handler returns by a value with bit 22 of 0; then a handler of HardFault that meets itself.
REFUSED = (b"10000000 0010003041000010\n1000000c 81000010\n1000002c 01010010\n10000040 03df\n10000100 00480047f9ffbfff\n", "", """\
0 s X 11 fffffff9
    SVC 3
    interrupted 10000042 S thread
    frame MSP_S 30000fe0 r0=00000000 r1=00000000 r2=00000000 r3=00000000 r12=00000000 lr=ffffffff pc=10000042 retpsr=01000000
    takes 11 SVCall S, priority 0, DCRS 1
    vector 1000002c 10000101
1 s N 10000100 4800 ldr r0, [pc, #0] r0=ffbffff9
    load 10000104 word ffbffff9
2 s X 3 fffffff9
    EXC_RETURN ffbffff9: ES 1 S 1 DCRS 1 thread SPSEL 0
    refused: INVPC, bits 23 to 7 are not ones
    HardFault S for UsageFault S (FORCED): UsageFault is not enabled
    tail-chain S thread
    takes 3 HardFault S, priority -1, DCRS 1
    vector 1000000c 10000081
""")

# An interrupt whose frame would begin below the limit, and the loads of several words and sizes.
LIMITED = (b"10000000 0010003041000010\n1000000c 81000010\n10000060 f00f0030\n10000068 80ff7f0140302010\n", "4 irq 1\n5 irq 0\n5 nmi", """\
0 s N 10000040 4807 ldr r0, [pc, #28] r0=30000ff0
    load 10000060 word 30000ff0
1 s N 10000042 f380880a msr msplim, r0
2 s N 10000046 f20f0120 adr.w r1, 0x10000068 r1=10000068
3 s N 1000004a f991200a ldrsb.w r2, [r1, #0] r2=ffffff80
    load 10000068 byte 00000080
4 s X 3 fffffff9
    event irq 1
    interrupted 1000004e S thread
    frame not written: STKOF S, 30000fe0 is below MSPLIM_S 30000ff0
    HardFault S for UsageFault S (FORCED): UsageFault is not enabled
    takes 3 HardFault S, priority -1, DCRS 1
    vector 1000000c 10000081
5 s N 10000080 e8b10018 ldm.w r1!, {r3, r4} r1=10000070 r3=017fff80 r4=10203040
    event irq 0
    event nmi
    load 10000068 word 017fff80
    load 1000006c word 10203040
6 s N 10000084 f83160fe ldrsh.w r6, [r1, #-8] r6=ffffff80
    load 10000068 half 0000ff80
""")

# SysTick, which ends a sleep.
SLEPT = (b"10000000 0010003041000010\n1000003c 81000010\n10000060 10e000e0\n", "", """\
0 s N 10000040 4807 ldr r0, [pc, #28] r0=e000e010
    load 10000060 word e000e010
1 s N 10000042 2101 movs r1, #1 r1=00000001
2 s N 10000044 6041 str r1, [r0, #4] [e000e014].4=00000001
    store e000e014 SYST_RVR
3 s N 10000046 2103 movs r1, #3 r1=00000003
4 s N 10000048 6001 str r1, [r0, #0] [e000e010].4=00000003
    store e000e010 SYST_CSR
5 s N 1000004a bf30 wfi
6 s X 15 fffffff9
    SysTick S pends
    sleep ends
    interrupted 1000004c S thread
    frame MSP_S 30000fe0 r0=e000e010 r1=00000003 r2=00000000 r3=00000000 r12=00000000 lr=ffffffff pc=1000004c retpsr=01000000
    takes 15 SysTick S, priority 0, DCRS 1
    vector 1000003c 10000081
""")

# Both channels of the mover: the Secure one moves two words to where they are, and pends an interrupt; the Non-secure one
# can't read its word.
MOVED = (b"10000000 0010003041000010\n10000060 00ec00e0000000300903000000ec02e0\n30000000 0706050403020100\n", "", """\
0 s N 10000040 4807 ldr r0, [pc, #28] r0=e000ec00
    load 10000060 word e000ec00
1 s N 10000042 4908 ldr r1, [pc, #32] r1=30000000
    load 10000064 word 30000000
2 s N 10000044 6001 str r1, [r0, #0] [e000ec00].4=30000000
    store e000ec00 MOVER_SRC
3 s N 10000046 6041 str r1, [r0, #4] [e000ec04].4=30000000
    store e000ec04 MOVER_DST
4 s N 10000048 2102 movs r1, #2 r1=00000002
5 s N 1000004a 6081 str r1, [r0, #8] [e000ec08].4=00000002
    store e000ec08 MOVER_COUNT
6 s N 1000004c 4906 ldr r1, [pc, #24] r1=00000309
    load 10000068 word 00000309
7 s N 1000004e 60c1 str r1, [r0, #12] [e000ec0c].4=00000309
    store e000ec0c MOVER_CTRL
8 s N 10000050 bf00 nop
    mover S 30000000 to 30000000 04050607
9 s N 10000052 68c1 ldr r1, [r0, #12] r1=0000030a
    mover S 30000004 to 30000004 00010203
    mover S DONE
    mover S pends irq 3
    load e000ec0c word 0000030a MOVER_CTRL
10 s N 10000054 4a05 ldr r2, [pc, #20] r2=e002ec00
    load 1000006c word e002ec00
11 s N 10000056 6091 str r1, [r2, #8] [e002ec08].4=0000030a
    store e002ec08 MOVER_COUNT_NS
12 s N 10000058 2101 movs r1, #1 r1=00000001
13 s N 1000005a 60d1 str r1, [r2, #12] [e002ec0c].4=00000001
    store e002ec0c MOVER_CTRL_NS
14 s N 1000005c bf00 nop
    mover NS 00000000 to 00000000 ERROR
""")

# With the board of each.
TRACES = [(DEMO, *trace) for trace in (CROSSED, REFUSED, LIMITED, SLEPT)] + [(MOVER_BOARD, *MOVED)]

# Fields of which nothing at their own step tells: which fault of an exception it was. Later loads of status registers do.
UNKNOWN = {("fault", "fault"), ("fault", "address")}


def verdict_on(board, image, script, text):
    """What is told of a made trace."""
    verdict = Verdict()
    core = Core(Memory(Board(board), [image]))
    groups = grouped(text)
    lines = [line for line, _ in groups]
    sides = {it.step: it.side for it in map(line_of, lines)}
    machine = Run(core, System(core), events_of(script), lambda step: "S" in (sides[step], sides.get(step + 1)), verdict)
    for at, (line, below) in enumerate(groups):
        machine.take(line, lines[at + 1] if at + 1 < len(lines) else None, below)
    return verdict


def other(value):
    """Another value of the same form."""
    swapped = {"S": "NS", "NS": "S", "thread": "handler", "handler": "thread", "MSP": "PSP", "PSP": "MSP", "r0-r12": "r0-r3, r12",
               "word": "half", "half": "byte", "byte": "word", "nmi": "irq 3", "preempt": "refused"}
    if value in swapped:
        return swapped[value]
    if value[:3] in ("MSP", "PSP"):
        return {"M": "P", "P": "M"}[value[0]] + value[1:]
    last = value[-1]
    if last in "0123456789abcdef":
        return value[:-1] + {"0": "1", "1": "0", "9": "8", "f": "e"}.get(last, "0" if last > "9" else chr(ord(last) + 1))
    names = ["HardFault", "BusFault", "UsageFault", "SysTick", "SVCall", "VTOR", "CCR", "SYST_CSR", "SYST_RVR"]
    return names[(names.index(value) + 1) % len(names)] if value in names else None


def changed(line):
    """A line with each of its fields changed, and each as it isn't one of the grammar."""
    told = told_of(line)
    yield "taken away", []
    yield "twice", [line, line]
    yield "of no grammar", [line + " "]
    form = next(form for kind, _, form in GRAMMAR if kind == told.kind and form.fullmatch(line))
    found = form.fullmatch(line)
    for name, value in told.fields.items():
        fresh = None if value is None or (told.kind, name) in UNKNOWN else other(value)
        if fresh is not None:
            yield name, [line[:found.start(name)] + fresh + line[found.end(name):]]


def tried():
    """How many changes were tried, and what was told that hasn't to be, or wasn't told."""
    count, missed = 0, []
    for board, image, script, text in TRACES:
        missed += [f"step {step}: {told}" for step, told in verdict_on(board, image, script, text).disagreements]
        lines = text.splitlines()
        for at, line in enumerate(lines):
            if not line.startswith(INDENT):
                continue
            for what, instead in changed(line):
                count += 1
                trace = "\n".join([*lines[:at], *instead, *lines[at + 1:]]) + "\n"
                if not verdict_on(board, image, script, trace).disagreements:
                    missed.append(f"not told: {line.strip()}: {what}: {''.join(instead).strip()}")
    return count, missed
