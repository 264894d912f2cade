"""The lines that view `full` puts under a line of the trace: their grammar, and what is asked of one."""

import collections
import re

INDENT = "    "
WORD = "[0-9a-f]{8}"
SIDE = "(?:NS|S)"
MODE = "(?:thread|handler)"
EXCEPTION = "(?:NMI|HardFault|MemManage|BusFault|UsageFault|SecureFault|SVCall|PendSV|SysTick|interrupt [0-9]+|reserved)"
SYSTEM = "[A-Z][A-Z0-9_]+|reserved"
BASIC = ("r0", "r1", "r2", "r3", "r12", "lr", "pc", "retpsr")
SAVED = tuple(f"r{number}" for number in range(4, 12))
GENERAL = tuple(f"r{number}" for number in range(13))


def named(**groups):
    """Patterns as groups with names, in a text."""
    return {name: f"(?P<{name}>{pattern})" for name, pattern in groups.items()}


def values(names):
    return " ".join(f"{name}=(?P<{name}>{WORD})" for name in names)


PARTS = named(
    address=WORD, base=WORD, value=f"{WORD}|-{{8}}", word=WORD, second=WORD, side=SIDE, of=SIDE, mode=MODE, stack=f"[MP]SP_{SIDE}",
    limit=f"[MP]SPLIM_{SIDE}", bound=WORD, name=EXCEPTION, other=EXCEPTION, system=SYSTEM, number="[0-9]+", priority="-?[0-9]+",
    size="byte|half|word", es="[01]", s="[01]", dcrs="[01]", spsel="[01]",
    back=f"{WORD}|-{{8}}", ipsr="[0-9]+|-{8}", t="[01]", flags=WORD, it="[0-9a-f]{2}", pc=WORD)

CALL_FRAME = "call frame {base}: return address {back}, IPSR {ipsr}"
FRAME = f"frame {{stack}} {{base}} {values(BASIC)}"
ADDITIONAL = f"additional frame {{stack}} {{base}} {{word}} {{second}} {values(SAVED)}"
FLAGS = "flags={flags} it={it} t={t} pc={pc}"
PLAIN = "UNDEFINSTR|INVSTATE|NOCP|UNALIGNED|DIVBYZERO|IBUSERR|INVEP|INVTRAN|DEBUGEVT"

# Each kind of line, with its rank: the lines of a step stand by ascending ranks.
EVENTS, BEGUN, MOVES, SLEEP, LOADS, STORES, WAYS, TAKING, CROSSING = range(9)
FORMS = [
    ("event", EVENTS, r"event (?P<event>irq [0-9]+|nmi)"),
    ("tick", BEGUN, "SysTick {side} pends"),
    ("moved", MOVES, f"mover {{side}} {{address}} to {{base}} (?P<value>{WORD}|ERROR)"),
    ("moves done", MOVES, "mover {side} DONE"),
    ("moves pend", MOVES, "mover {side} pends irq {number}"),
    ("sleep", SLEEP, "sleep ends"),
    ("load", LOADS, "load {address} {size} {value}(?: {system})?"),
    ("store", STORES, "store {address} {system}"),
    ("gateway", WAYS, "SG from {address}: Secure code goes on at {pc}"),
    ("call", WAYS, CALL_FRAME),
    ("function", WAYS, f"FNC_RETURN {{word}}(?:: {CALL_FRAME})?"),
    ("return", WAYS, "EXC_RETURN {word}: ES {es} S {s} DCRS {dcrs} {mode} SPSEL {spsel}"),
    ("from additional", WAYS, f"from {ADDITIONAL}"),
    ("from", WAYS, f"from {FRAME}"),
    ("onward", WAYS, "goes on at {pc} {side} {mode}"),
    ("fault", TAKING, f"fault (?P<fault>{PLAIN})"),
    ("fault", TAKING, "fault (?P<fault>INVPC|STKOF|IACCVIOL) {side}"),
    ("fault", TAKING, "fault (?P<fault>AUVIOL|PRECISERR) {address}"),
    ("fault", TAKING, "fault (?P<fault>DACCVIOL) {address} {side}"),
    ("call of supervisor", TAKING, "SVC {number}"),
    ("forced", TAKING, r"HardFault {side} for {name} {of} \(FORCED\): (?P<why>{other} is not enabled|its priority is not above "
                       "that of the code)"),
    ("refused value", TAKING, "refused: (?P<fault>INVPC|INVER), (?P<why>bits 23 to 7 are not ones|bit 1 is 1|FType is 0|Non-secure "
                              "code returns with ES 1|Non-secure code returns with DCRS 0|no exception {number} {side} is active)"),
    ("refused frame", TAKING, "refused: frame at {base}, INVIS"),
    ("refused word", TAKING, "refused: word of the frame, (?P<fault>MUNSTKERR) {address} {side}"),
    ("refused word", TAKING, "refused: word of the frame, (?P<fault>UNSTKERR|AUVIOL) {address}"),
    ("refused mode", TAKING, "refused: INVPC, the frame's mode is not {mode}"),
    ("interrupted", TAKING, "interrupted {address} {side} {mode}"),
    ("tail-chain", TAKING, "tail-chain {side} {mode}"),
    ("frame", TAKING, FRAME),
    ("below limit", TAKING, "frame not written: STKOF {side}, {base} is below {limit} {bound}"),
    ("unwritten", TAKING, "frame not written: (?P<fault>MSTKERR) {address} {side}"),
    ("unwritten", TAKING, "frame not written: (?P<fault>STKERR|AUVIOL) {address}"),
    ("additional", TAKING, ADDITIONAL),
    ("additional below limit", TAKING, "additional frame not written: STKOF {side}, it would begin below {limit} {bound}"),
    ("additional unwritten", TAKING, "additional frame not written: (?P<fault>MSTKERR) {address} {side}"),
    ("additional unwritten", TAKING, "additional frame not written: (?P<fault>STKERR|AUVIOL) {address}"),
    ("additional uncounted", TAKING, "additional frame at {stack} {base}: a fault of it doesn't count"),
    ("unread vector", TAKING, r"vector of {name} {side} at {address} not read \(VECTTBL\)"),
    ("takes", TAKING, "takes {number} {name} {side}(?:, priority {priority})?, DCRS {dcrs}"),
    ("vector", TAKING, "vector {address} {word}"),
    ("cleared", TAKING, r"cleared (?P<cleared>r0-r12|r0-r3, r12), flags"),
    ("lockup", TAKING, "lockup: {name} {side} can't be taken(?P<nor>, nor HardFault)?: the code has priority {priority}"),
    ("last vector", TAKING, "lockup: vector of {name} {side} at {address} not read"),
    ("crossing", CROSSING, f"crossing (?P<way>return|excreturn), hands over {values(GENERAL)} lr=(?P<lr>{WORD}) {FLAGS}"),
    ("crossing", CROSSING, f"crossing (?P<way>call), hands over {values(GENERAL)} {FLAGS}"),
    ("crossing", CROSSING, f"crossing (?P<way>chain), hands over {values(SAVED)}"),
    ("crossing", CROSSING, "crossing (?P<way>preempt|refused), hands over nothing"),
]


def form_of(pattern):
    for name, group in PARTS.items():
        pattern = pattern.replace("{" + name + "}", group)
    return re.compile(INDENT + pattern)


GRAMMAR = [(kind, rank, form_of(pattern)) for kind, rank, pattern in FORMS]

# What a field that isn't there is compared with.
ABSENT = ""

# A line that is told: its kind, its rank, its fields by name.
Told = collections.namedtuple("Told", "kind rank fields text")
# A line that has to be there: its kind, and its fields as far as they are known.
Fact = collections.namedtuple("Fact", "kind fields")


def told_of(text):
    """A line by its kind; nothing where it matches no form."""
    for kind, rank, form in GRAMMAR:
        found = form.fullmatch(text)
        if found:
            return Told(kind, rank, found.groupdict(), text)
    return None


def word(value):
    return None if value is None else f"{value & 0xFFFFFFFF:08x}"


def digit(value):
    return None if value is None else str(int(value))


class Verdict:
    """What comes of a check: how many fields were compared and passed over by kind, and what disagrees."""

    def __init__(self):
        self.compared, self.passed_over = collections.Counter(), collections.Counter()
        self.lines = collections.Counter()
        self.disagreements = []

    def tell(self, step, text):
        self.disagreements.append((step, text))

    def field(self, step, kind, name, wanted, got):
        if wanted is None:
            self.passed_over[f"{kind}: {name}"] += 1
            return
        self.compared[f"{kind}: {name}"] += 1
        if wanted != (ABSENT if got is None and wanted == ABSENT else got):
            self.tell(step, f"{kind}: {name} is told as {got}, and has to be {wanted}")

    def facts(self, step, wanted, told):
        """Compares the lines of one kind, in their order."""
        if len(wanted) != len(told):
            kind = (wanted or told)[0].kind
            self.tell(step, f"{kind}: {len(told)} lines, and not {len(wanted)}: {[it.text.strip() for it in told]}")
            return
        for fact, line in zip(wanted, told):
            for name, value in fact.fields.items():
                self.field(step, fact.kind, name, value, line.fields.get(name))

    def add(self, other):
        self.compared.update(other.compared)
        self.passed_over.update(other.passed_over)
        self.lines.update(other.lines)
