"""Goes through a run by its lines of view `all`, and says what lines view `full` has to have below each.

Registers are those of the lines, memory that of the images and the stores; what no line lists is worked out by
docs/PROFILE.md. Facts that can't be known so are passed over, and counted.
"""

import collections
import re

from full_entries import bit, Entries, stack_name
from full_instructions import branch_of, is_table, loads_of
from full_lines import ABSENT, BASIC, Fact, GENERAL, SAVED, digit, told_of, word
from full_machine import EXC_RETURN, FNC_RETURN, NONSECURE, PRIVATE, SECURE, SIGNATURE, plus, system_name
from full_system import FIRST_INTERRUPT, SIDES

LINE = re.compile(r"(\d+) ([sn]) ([NXZL])(?: (.*))?")
CHANGE = r"(?:r\d+|sp|lr|apsr)=[0-9a-f]{8}|\[[0-9a-f]{8}\]\.[124]=[0-9a-f]{8}"
RAN = re.compile(rf"([0-9a-f]{{8}}) ([0-9a-f]{{4,8}}) (.*?)((?: (?:{CHANGE}))*)")
REGISTER = re.compile(r"(r\d+|sp|lr|apsr)=([0-9a-f]{8})")
STORE = re.compile(r"\[([0-9a-f]{8})\]\.([124])=([0-9a-f]{8})")
WRITE = re.compile(r"msr (\w+), (\w+)")
MASK = re.compile(r"cpsi([de]) ([if]+)")
LETTERS = {"s": SECURE, "n": NONSECURE}
SIZES = {1: "byte", 2: "half", 4: "word"}
MOVES = ("moved", "moves done", "moves pend")
# Kinds of which a step may have several lines.
SEVERAL = {"event", "tick", *MOVES, "load", "store", "forced"}

Line = collections.namedtuple("Line", "step side kind pc code text registers stores number lr")


def line_of(text):
    """A line of view `all`."""
    step, letter, kind, rest = LINE.fullmatch(text).groups()
    line = Line(int(step), LETTERS[letter], kind, None, "", "", {}, [], None, None)
    if kind == "X":
        number, link = rest.split(" ")
        return line._replace(number=int(number), lr=int(link, 16))
    if kind != "N":
        return line
    pc, code, words, changes = RAN.fullmatch(rest).groups()
    return line._replace(
        pc=int(pc, 16), code=code, text=words,
        registers={name: int(value, 16) for name, value in REGISTER.findall(changes)},
        stores=[(int(address, 16), int(size), int(value, 16)) for address, size, value in STORE.findall(changes)])


class Run(Entries):
    """A run that is gone through: its core, its system registers, and the verdict."""

    def __init__(self, core, system, events, hidden, verdict):
        self.core, self.system, self.events, self.hidden, self.verdict = core, system, events, hidden, verdict
        self.is_locked = False
        # Of the step: its number, the lines that are told by their kinds, those that have to be there, and kinds that
        # are checked in another way.
        self.step, self.told, self.wanted, self.free = 0, {}, [], set()

    def want(self, kind, **fields):
        self.wanted.append(Fact(kind, fields))

    def tell(self, text):
        self.verdict.tell(self.step, text)

    def equal(self, what, wanted, got):
        """A field that isn't of a line of its own."""
        self.verdict.field(self.step, "all", what, wanted, got)

    def take(self, text, following, lines):
        """A step, by its line, the line that follows, and the lines below it."""
        line, after = line_of(text), line_of(following) if following else None
        self.step, self.wanted, self.free = line.step, [], set()
        self.read(lines)
        self.begin(line)
        if self.is_locked or line.kind == "Z":
            pass
        elif line.kind == "N":
            self.ran(line, after)
        else:
            self.excepted(line, after)
        self.crossed(line, after)
        self.compare()

    def read(self, lines):
        """The lines below, by their kinds."""
        self.told, rank = collections.defaultdict(list), 0
        self.order = []
        for text in lines:
            told = told_of(text)
            if told is None:
                self.tell(f"no line of the grammar: {text!r}")
                continue
            if told.rank < rank:
                self.tell(f"a line in another place: {text.strip()}")
            rank = told.rank
            self.order.append(told)
            self.told[told.kind].append(told)
            self.verdict.lines[told.kind] += 1

    def compare(self):
        for kind, lines in self.told.items():
            if len(lines) > 1 and kind not in SEVERAL:
                self.tell(f"{kind}: several lines")
        wanted = collections.defaultdict(list)
        for fact in self.wanted:
            wanted[fact.kind].append(fact)
        for kind in list(wanted) + [it for it in self.told if it not in wanted]:
            if kind in wanted or kind not in self.free:
                self.verdict.facts(self.step, wanted[kind], self.told.get(kind, []))

    # ---- what a step begins with

    def begin(self, line):
        for event in self.events.get(line.step, ()):
            self.want("event", event=event)
            self.system.pend(2 if event == "nmi" else FIRST_INTERRUPT + int(event.split(" ")[1]))
        for side in SIDES:
            if self.system.timers[side].count():
                self.want("tick", side=side)
                self.system.pend(15)
        if not self.is_locked:
            self.move(line.side)
        if self.core.sleep is None:
            self.free.add("sleep")
        elif self.core.sleep and line.kind != "Z" and not self.is_locked:
            self.want("sleep")
        if line.kind != "Z":
            if self.core.sleep == "wfe" and line.kind == "N":
                self.core.event = 0
            self.core.sleep = ""

    def move(self, side):
        """The moves of a step that begins in the state of a side."""
        memory = self.core.memory
        moves = self.system.mover.moves(side, memory, self.system.pend_interrupt)
        if moves is None:
            self.free.update(MOVES)
            # What was moved isn't known, and so nothing in memory is.
            memory.forget_all()
        else:
            self.wanted += moves

    # ---- an instruction that ran

    def ran(self, line, after):
        core = self.core
        self.equal("pc", word(core.pc), word(line.pc))
        core.pc = line.pc
        gateway = line.text == "sg" and core.side == NONSECURE and (after.side if after else None) == SECURE
        skipped = core.is_skipped() and not gateway
        text = "" if skipped else line.text
        length = len(line.code) // 2
        loads, base = loads_of(core, text)
        read = next((self.loaded(it) for it in loads if it.register == "pc" or is_table(text)), None)
        unknown = read is None and any(it.register in ("pc", None) for it in loads)
        branch = branch_of(core, text, length, read)
        target = None if unknown else branch.target
        kind = "to" if unknown and not is_table(text) else branch.kind
        before = core.r["lr"], core.get("sp"), core.bank(), core.side
        if base and base[0] == "sp" and base[1] is not None and before[2]:
            core.sp[before[2]] = base[1] & ~3
        core.it = int(line.code, 16) & 0xFF if re.match(r"it[te]* ", text) else core.advanced_it()
        self.list(line)
        resumed = self.go(kind, target, line, after, gateway)
        self.effects(text)
        self.listed_sp(line, before)
        self.load_facts(loads, resumed, before[3], is_table(text))
        for address, size, value in line.stores:
            if address in PRIVATE:
                self.want("store", address=word(address), system=self.system_name(address))
            self.system.store(before[3], address, size, value)

    def loaded(self, load):
        return None if load.address is None else self.core.memory.read(load.address, load.size)

    def list(self, line):
        """Registers and stores that the line lists."""
        for name, value in line.registers.items():
            if name != "sp":
                self.core.r[name] = value
        for address, size, value in line.stores:
            if address not in PRIVATE:
                self.core.memory.write(address, size, value)

    def listed_sp(self, line, before):
        """The stack pointer in use after the step: the one of before, where none is listed."""
        core, value = self.core, line.registers.get("sp", before[1])
        bank = core.bank()
        if bank is None or value is None:
            return
        if bank != before[2]:
            self.equal("sp of the other stack", word(core.sp[bank]), word(value))
        core.sp[bank] = value

    def effects(self, text):
        """What an instruction changes that no line lists."""
        core = self.core
        found = WRITE.fullmatch(text)
        if found:
            self.write(found[1], core.get(found[2]))
        elif MASK.fullmatch(text):
            self.mask(*MASK.fullmatch(text).groups())
        elif text == "wfi":
            core.sleep = "wfi"
        elif text == "sev":
            core.event = 1
        elif text == "wfe":
            core.sleep = None if core.event is None else "" if core.event else "wfe"
            core.event = 0 if core.event else core.event

    def write(self, name, value):
        """MSR, but for the flags, which a line lists."""
        core, side = self.core, self.core.side
        if name.endswith("_ns"):
            if side == NONSECURE:
                return
            name, side = name[:-3], NONSECURE
        if core.ipsr == 0 and core.npriv[core.side]:
            return
        if name == "sp":
            self.set_sp(side, core.is_thread() and core.spsel[side], value)
        elif name in ("msp", "psp"):
            self.set_sp(side, name == "psp", value)
        elif name in ("msplim", "psplim"):
            core.limit[side, name == "psplim"] = None if value is None else value & ~7
        elif name in ("primask", "basepri", "basepri_max", "faultmask"):
            self.system.mask(name, side, value)
        elif name == "control":
            core.npriv[side] = None if value is None else bool(value & 1)
            core.spsel[side] = None if value is None else bool(value & 2)

    def mask(self, change, masks):
        """CPS."""
        core = self.core
        if not (core.ipsr == 0 and core.npriv[core.side]):
            for letter in masks:
                self.system.mask({"i": "primask", "f": "faultmask"}[letter], core.side, int(change == "d"))

    def set_sp(self, side, process, value):
        """A stack pointer that is written; the one in use is listed."""
        if process is not None:
            self.core.sp[side, bool(process)] = None if value is None else value & ~3

    # ---- where it goes on

    def go(self, kind, target, line, after, gateway):
        """Where code goes on; whether an exception has returned."""
        core = self.core
        if gateway:
            self.want("gateway", address=word(line.pc), pc=word(line.pc + 4))
            core.side, core.it, core.pc = SECURE, 0, line.pc + 4
            return False
        if kind in ("to", "bxns"):
            if target is None:
                target = self.told_value()
            if target in FNC_RETURN:
                self.function_return(target)
                return False
            if target is not None and target >= EXC_RETURN and core.ipsr != 0:
                self.exception_return(target, after)
                return True
        if target is None:
            core.pc = None
            core.side = after.side if kind == "bxns" and after else core.side
            return False
        if kind == "bxns":
            core.side, target = SECURE if target & 1 else NONSECURE, target | 1
        if kind == "blxns" and not target & 1:
            self.call(target, line)
        elif kind == "at":
            core.pc = target
        else:
            core.pc, core.t = target & ~1, target & 1
        return False

    def told_value(self):
        """The value by which code returned, where nothing but the lines below knows it."""
        for kind in ("function", "return"):
            if self.told[kind]:
                return int(self.told[kind][0].fields["word"], 16)
        return None

    def call(self, target, line):
        core = self.core
        base = None if core.bank() is None else plus(core.sp[core.bank()], -8)
        if base is not None:
            core.sp[core.bank()] = base
        (address, _, back), (_, _, number) = line.stores
        self.equal("place of a call's frame", word(base), word(address))
        self.want("call", base=word(address), back=word(back), ipsr=digit(number & 0x1FF))
        core.side, core.pc, core.t = NONSECURE, target, 1
        core.ipsr = core.ipsr and 1

    def function_return(self, value):
        core = self.core
        frame, process, base, back, number = self.call_frame()
        self.want("function", word=word(value), **frame)
        core.side, core.it, core.ipsr = SECURE, 0, number if number is not None else 0 if core.ipsr == 0 else None
        core.pc, core.t = (None, None) if back is None else (back & ~1, back & 1)
        if base is not None:
            core.sp[SECURE, bool(process)] = plus(base, 8)

    def value_facts(self, value):
        self.want("return", word=word(value), es=digit(bit(value, 0)), s=digit(bit(value, 6)), dcrs=digit(bit(value, 5)),
                  mode="thread" if bit(value, 3) else "handler", spsel=digit(bit(value, 2)))

    def exception_return(self, value, after):
        """A return to code that was interrupted: the registers are those of the frames."""
        core = self.core
        self.value_facts(value)
        es = bit(value, 0) if core.side == SECURE else 0
        core.spsel[SECURE if es else NONSECURE] = bool(bit(value, 2))
        self.system.end(core.ipsr, SECURE if es else NONSECURE)
        side = SECURE if bit(value, 6) else NONSECURE
        process = core.process(side, bool(bit(value, 3)))
        base = None if process is None else core.sp[side, bool(process)]
        if bit(value, 6) and not (es and bit(value, 5)):
            self.want("from additional", stack=stack_name(process, side), base=word(base), word=word(SIGNATURE),
                      second=self.in_memory(base, 4), **self.saved(base))
            base = plus(base, 0x28)
        basic = self.basic(base, after)
        self.want("from", stack=stack_name(process, side), base=word(base), **basic)
        self.resume(side, process, base)
        mode = None if core.ipsr is None else "handler" if core.ipsr else "thread"
        self.want("onward", pc=word(core.pc), side=side, mode=mode)

    def in_memory(self, base, offset):
        return None if base is None else word(self.core.memory.read(base + offset))

    def framed(self, base, offset, name):
        """A word that a frame gives back to a register: the line tells it, and memory, where that is known."""
        value = word(self.core.r[name])
        self.equal(f"{name} that a frame gives back", self.in_memory(base, offset), value)
        return value

    def saved(self, base):
        return {name: self.framed(base, 8 + 4 * at, name) for at, name in enumerate(SAVED)}

    def basic(self, base, after):
        """The words of a basic frame that is read."""
        fields = {name: self.framed(base, 4 * at, name) for at, name in enumerate(BASIC[:6])}
        back = None if base is None else self.core.memory.read(base + 0x18)
        if back is not None and after and after.kind == "N":
            self.equal("return address in a frame", word(back & ~1), word(after.pc))
        return {**fields, "pc": word(back), "retpsr": self.in_memory(base, 0x1C)}

    def resume(self, side, process, base):
        core = self.core
        back, status = (None if base is None else core.memory.read(base + at) for at in (0x18, 0x1C))
        core.side, core.event = side, 1
        core.pc = None if back is None else back & ~1
        core.it = None if status is None else status >> 8 & 0xFC | status >> 25 & 3
        core.ipsr = None if status is None else status & 0x1FF
        core.t = None if status is None else bit(status, 24)
        if status is not None:
            self.equal("flags that a frame gives back", word(status & 0xF8000000), word(core.r["apsr"]))
            core.sp[side, bool(process)] = plus(base, 0x20 + 4 * bit(status, 9))
        elif process is not None:
            core.sp[side, bool(process)] = None

    # ---- loads

    def load_facts(self, loads, resumed, side, table):
        for load in loads:
            if load.address in PRIVATE and not resumed:
                self.status(load, side)
            private = load.address in PRIVATE if load.address is not None else None
            known = None if load.address is None or private else self.core.memory.read(load.address, load.size)
            self.want("load", address=word(load.address), size=SIZES[load.size], value=self.read_value(load, resumed, known, table),
                      system=None if private is None else self.system_name(load.address) if private else ABSENT)

    def system_name(self, address):
        return system_name(address, self.core.memory.board)

    def status(self, load, side):
        """A load of a status register, or of the mover: what the faults and the moves that were told have left there."""
        word_there = self.system.read(side, load.address & ~3)
        value = self.core.r.get(load.register)
        if word_there is not None and value is not None and not load.signed:
            wanted = word_there >> 8 * (load.address & 3) & (1 << 8 * load.size) - 1
            self.equal("status that faults have left", word(wanted), word(value))

    def read_value(self, load, resumed, known, table):
        """What was read: the register tells it, and memory, where that is known."""
        if load.register in ("pc", "sp", None) or resumed or table:
            return word(known)
        value = self.core.r[load.register]
        if value is None:
            return word(known)
        mask = (1 << 8 * load.size) - 1
        top = load.signed and bit(value, 8 * load.size - 1)
        if load.size < 4:
            self.equal("upper bits of a load", word(0xFFFFFFFF & ~mask if top else 0), word(value & ~mask))
        if known is not None:
            self.equal("word that is loaded", word(known), word(value & mask))
        return word(value & mask)

    # ---- crossings

    def crossed(self, line, after):
        """A step that looks at Secure state and ends Non-secure hands over registers."""
        core = self.core
        ends = after.side if after else core.side
        if after and not self.is_locked:
            self.equal("side after the step", core.side, after.side)
            if after.side != core.side:
                core.side = after.side
        is_hidden = self.hidden(line.step)
        if self.is_locked or ends != NONSECURE or not is_hidden:
            return
        if line.side == NONSECURE:
            kind = "refused"
        elif line.kind == "X":
            kind = "preempt" if bit(line.lr, 6) else "chain"
        else:
            kind = "call" if line.text.startswith("blxns") else "excreturn" if self.told["return"] else "return"
        self.want("crossing", way=kind, **self.handed(kind))

    def handed(self, kind):
        core = self.core
        if kind in ("preempt", "refused"):
            return {}
        if kind == "chain":
            return {name: word(core.r[name]) for name in SAVED}
        names = GENERAL + (() if kind == "call" else ("lr",))
        it = None if core.it is None else f"{core.it:02x}"
        return {**{name: word(core.r[name]) for name in names}, "flags": word(core.r["apsr"]), "it": it, "t": digit(core.t),
                "pc": word(core.pc)}
