"""What is known of a step in which an exception is taken, or the core locks: frames, vectors, causes and refused returns.

Which fault an instruction had no line of view `all` tells. So that is read from the lines below, and what has to follow from it
is compared.
"""

from full_instructions import branch_of, loads_of, returning_text
from full_lines import ABSENT, BASIC, GENERAL, SAVED, digit, word
from full_machine import EXC_RETURN, FNC_RETURN, NONSECURE, SECURE, SIGNATURE, plus
from full_system import EXCEPTIONS, FIRST_INTERRUPT, FORCED, HFSR, NUMBERS, VECTTBL, name_of

# Bytes below an address at which a store failed: those of the same instruction were stored before it.
STORED_BEFORE = 64


def stack_name(process, side):
    return None if process is None else f"{'PSP' if process else 'MSP'}_{side}"


def bit(value, at):
    return value >> at & 1


class Entries:
    """The part of a run that goes through entries of exceptions. Its core, its system registers and its lines are the run's."""

    # ---- an exception that is taken, or a core that locks

    def excepted(self, line, after):
        """An entry, or a core that locks."""
        core = self.core
        self.free = self.free | {
            "fault", "call of supervisor", "forced", "refused value", "refused frame", "refused word", "refused mode", "unwritten",
            "below limit", "additional unwritten", "additional below limit", "additional uncounted", "unread vector", "lockup",
            "last vector"}
        side = core.side
        if self.told["function"]:
            self.refused_call()
        secure, thread = side == SECURE, core.is_thread()
        chained, value = bool(self.told["return"]), None
        takes = line.kind == "X"
        if chained:
            value = self.chained()
            secure, thread = bool(bit(value, 6)), bool(bit(value, 3))
            if takes:
                self.want("tail-chain", side=SECURE if secure else NONSECURE, mode="thread" if thread else "handler")
        elif takes or self.told["interrupted"]:
            self.interrupted()
        self.causes(side)
        self.sided(side)
        if takes:
            self.additional(line, value, secure, thread, side)
            self.enter(line, secure, thread, value)
        else:
            self.lock(secure, thread)

    def refused_call(self):
        """A return from a call that is refused: its value, and the words that were to be taken."""
        core = self.core
        text = None if core.pc is None or core.memory.read(core.pc, 2) is None else returning_text(core.memory, core.pc) or ""
        loads, _ = loads_of(core, text or "")
        value = self.loaded(loads[-1]) if loads else branch_of(core, text, 2, None).target if text else None
        if value is not None and value not in FNC_RETURN or text == "":
            self.tell("a return from a call where no instruction returns")
        frame = {"base": ABSENT, "back": ABSENT, "ipsr": ABSENT} if core.side == SECURE else self.call_frame()[0]
        self.want("function", word=word(value), **frame)

    def call_frame(self):
        """The frame of a call at the Secure stack pointer: what is told of it, where it is, and its words."""
        core = self.core
        process = core.process(SECURE)
        base = None if process is None else core.sp[SECURE, bool(process)]
        back, number = (None if base is None else core.memory.read(base + at) for at in (0, 4))
        number = None if number is None else number & 0x1FF
        return {"base": word(base), "back": word(back), "ipsr": digit(number)}, process, base, back, number

    def chained(self):
        """A return that is refused, or ends in an entry; its value is that of the instruction where code stands."""
        core = self.core
        value = int(self.told["return"][0].fields["word"], 16)
        text = None if core.pc is None or core.memory.read(core.pc, 2) is None else returning_text(core.memory, core.pc) or ""
        if text == "":
            self.tell("a return where no instruction returns")
        if text:
            self.branched(text, value)
        self.value_facts(value)
        if core.ipsr == 0 or value < EXC_RETURN:
            self.tell("a return in Thread mode, or by no EXC_RETURN")
        for told in self.told["refused value"]:
            self.refused(told, value)
        if self.told["refused mode"]:
            self.equal("mode that a return refuses", "thread" if bit(value, 3) else "handler", self.told["refused mode"][0].fields["mode"])
        for told in self.told["refused frame"] + self.told["refused word"]:
            self.refused_frame(told, value)
        ended = SECURE if core.side == SECURE and bit(value, 0) else NONSECURE
        core.spsel[ended] = bool(bit(value, 2))
        self.system.end(core.ipsr, ended)
        return value

    def branched(self, text, value):
        """What a returning instruction itself does, beside its branch."""
        core = self.core
        loads, base = loads_of(core, text)
        read = next((self.loaded(it) for it in loads if it.register == "pc"), None)
        found = read if loads else branch_of(core, text, 2, None).target
        self.equal("value by which code returns", word(found), word(value))
        values = {it.register: self.loaded(it) for it in loads if it.register not in ("pc", "sp")}
        if base and base[0] == "sp" and core.bank():
            core.sp[core.bank()] = base[1]
        elif base:
            core.r[base[0]] = base[1]
        core.r.update(values)

    def refused(self, told, value):
        """Whether a value fails the check that is told, and none before it."""
        core = self.core
        outside = core.side == NONSECURE
        checks = [
            ("bits 23 to 7 are not ones", value >> 7 & 0x1FFFF != 0x1FFFF, "INVPC"), ("bit 1 is 1", bit(value, 1), "INVPC"),
            ("FType is 0", not bit(value, 4), "INVPC"), ("Non-secure code returns with ES 1", outside and bit(value, 0), "INVER"),
            ("Non-secure code returns with DCRS 0", outside and not bit(value, 5), "INVER")]
        es = SECURE if bit(value, 0) and not outside else NONSECURE
        number = "?" if core.ipsr is None else core.ipsr
        left = (f"no exception {number} {es} is active", True, "INVPC")
        why, _, fault = next((it for it in checks if it[1]), left)
        if "?" not in why:
            self.equal("check that refuses a return", why, told.fields["why"])
        self.equal("fault that refuses a return", fault, told.fields["fault"])

    def refused_frame(self, told, value):
        core = self.core
        side = SECURE if bit(value, 6) else NONSECURE
        spsel = bool(bit(value, 2)) if (side == SECURE) == bool(bit(value, 0)) else core.spsel[side]
        base = None if spsel is None else core.sp[side, bool(bit(value, 3)) and spsel]
        if told.kind == "refused word":
            if base is not None:
                self.equal("word that a return can't read", True, int(told.fields["address"], 16) in range(base, base + 0x48, 4))
            return
        self.equal("frame that a return refuses", word(base), told.fields["base"])
        found = None if base is None else core.memory.read(base)
        if found == SIGNATURE:
            self.tell("a frame that is signed is refused")

    # ---- the basic frame

    def interrupted(self):
        """What is interrupted, and its frame."""
        core = self.core
        supervisor = bool(self.told["call of supervisor"])
        back, it = (plus(core.pc, 2), core.advanced_it()) if supervisor else (core.pc, core.it)
        if supervisor:
            code = core.memory.read(core.pc, 2) if core.pc is not None else None
            self.equal("number of SVC", digit(None if code is None else code & 0xFF), self.told["call of supervisor"][0].fields["number"])
            if code is not None and code >> 8 != 0xDF:
                self.tell("SVC where another instruction stands")
        thread = core.is_thread()
        self.want("interrupted", address=word(back), side=core.side, mode=None if thread is None else "thread" if thread else "handler")
        for told in self.told["fault"]:
            if told.fields.get("address"):
                address = int(told.fields["address"], 16)
                core.memory.forget(address - STORED_BEFORE, address)
        bank = core.bank()
        sp = None if bank is None else core.sp[bank]
        base = None if sp is None else plus(sp, -0x20) & ~4
        name = None if bank is None else stack_name(bank[1], bank[0])
        if self.is_written("", bank, base):
            self.want("frame", stack=name, base=word(base), **self.push(base, back, it, sp))
        self.moved(bank, base, bool(self.told["below limit"]))

    def moved(self, bank, base, limited):
        if bank is not None:
            self.core.sp[bank] = self.core.limit[bank] if limited else base

    def is_written(self, prefix, bank, base):
        """Whether a frame was written; else why it wasn't is checked."""
        core = self.core
        limit = None if bank is None else core.limit[bank]
        unwritten, limited = self.told[f"{prefix}unwritten"], self.told[f"{prefix}below limit"]
        if limit is not None and base is not None:
            self.equal(f"{prefix}frame is below its limit", base < limit, bool(limited))
        for told in limited:
            self.equal("limit of a frame", None if bank is None else stack_name(bank[1], bank[0]).replace("_", "LIM_"), told.fields["limit"])
            self.equal("bound of a frame", word(limit), told.fields["bound"])
            self.equal("side of STKOF", None if bank is None else bank[0], told.fields["side"])
            if not prefix:
                self.equal("base of a frame below its limit", word(base), told.fields["base"])
        for told in unwritten:
            size = 0x28 if prefix else 0x20
            if base is not None:
                self.equal("word of a frame that isn't written", True, int(told.fields["address"], 16) in range(base, base + size, 4))
                core.memory.forget(base, base + size)
            if bank is not None and told.fields.get("side"):
                self.equal("side of MSTKERR", bank[0], told.fields["side"])
        return not unwritten and not limited

    def push(self, base, back, it, sp):
        """The words of a basic frame, which are written."""
        core = self.core
        values = [core.r[name] for name in BASIC[:6]] + [back]
        parts = (core.r["apsr"], it, core.t, core.ipsr, sp)
        status = None
        if None not in parts:
            flags, it, t, ipsr, sp = parts
            status = flags & 0xF8000000 | (it & 3) << 25 | (it & 0xFC) << 8 | t << 24 | bit(sp, 2) << 9 | ipsr
        values.append(status)
        if base is not None:
            for at, value in enumerate(values):
                core.memory.write(base + 4 * at, 4, value)
        return {name: word(value) for name, value in zip(BASIC, values)}

    # ---- the additional frame

    def additional(self, line, value, secure, thread, returned_from):
        """The additional frame of a Non-secure exception that takes the core from Secure code."""
        core = self.core
        faulted = any(self.told[kind] for kind in ("below limit", "unwritten", "additional below limit", "additional unwritten"))
        # Also where that was chosen first, and its vector couldn't be read.
        unread = any(it.fields["side"] == NONSECURE for it in self.told["unread vector"])
        wanted = secure and (not line.lr & 1 or unread)
        if value is not None:
            wanted = wanted and bool(bit(value, 0)) and returned_from == SECURE and bool(bit(value, 5))
        if not wanted and not (faulted and secure):
            return
        if not wanted and not any(self.told[kind] for kind in ("additional", "additional uncounted", "additional below limit", "additional unwritten")):
            return
        process = core.process(SECURE, thread)
        bank = None if process is None else (SECURE, bool(process))
        sp = None if bank is None else core.sp[bank]
        base = plus(sp, -0x28)
        uncounted = self.told["additional uncounted"]
        limit = None if bank is None else core.limit[bank]
        limited = base < limit if None not in (base, limit) and uncounted else bool(self.told["additional below limit"])
        for told in uncounted:
            self.equal("additional frame that doesn't count", word(limit if limited else base), told.fields["base"])
            if base is not None:
                core.memory.forget(base, base + 0x28)
        if not uncounted and self.is_written("additional ", bank, base):
            self.want("additional", stack=stack_name(process, SECURE), base=word(base), **self.push_saved(base))
        self.moved(bank, base, limited)

    def push_saved(self, base):
        values = [SIGNATURE, 0] + [self.core.r[name] for name in SAVED]
        if base is not None:
            for at, value in enumerate(values):
                self.core.memory.write(base + 4 * at, 4, value)
        return {name: word(value) for name, value in zip(("word", "second") + SAVED, values)}

    # ---- causes

    def causes(self, side):
        """Which exceptions a step's faults pend, and whether they escalate rightly."""
        last = None
        for told in self.order:
            found = self.raised(told, side)
            if found:
                self.settle(last)
                last = found
                self.note(told, found[1])
            elif told.kind in ("forced", "lockup") and not last:
                self.tell(f"nothing before it raises an exception: {told.text.strip()}")
            elif told.kind == "forced":
                self.forced(told, last)
                self.system.pend(3)
                self.system.status.words[HFSR] |= FORCED
                last = None
            elif told.kind == "lockup":
                self.locked(told, last)
                self.system.status.words[HFSR] |= FORCED
                last = None
        self.settle(last)
        for told in self.told["unread vector"] + self.told["last vector"]:
            self.missing(told)

    def note(self, told, side):
        """What a fault leaves in the status registers."""
        names = {"below limit": "STKOF", "additional below limit": "STKOF", "refused frame": "INVIS", "refused mode": "INVPC"}
        fault, address = names.get(told.kind) or told.fields.get("fault"), told.fields.get("address")
        if fault:
            self.system.status.note(fault, side, address and int(address, 16), told.kind != "fault")

    def settle(self, last):
        """A fault whose exception stays what it is."""
        if last:
            self.equal("what becomes of a fault", self.system.outcome(*last), "itself")
            self.system.pend(last[0])

    def locked(self, told, last):
        """A fault by which the core locks."""
        fields = told.fields
        self.equal("what becomes of a fault", self.system.outcome(*last), "lockup")
        self.equal("exception that can't be taken", f"{name_of(last[0])} {last[1]}", f"{fields['name']} {fields['side']}")
        self.equal("priority at which the core locks", digit(self.system.execution()), fields["priority"])
        self.equal("HardFault that can't be taken, either", last[0] != 3, bool(fields["nor"]))

    def raised(self, told, side):
        """The exception of a fault, and its side; nothing where the line is of no fault."""
        fields = told.fields
        if told.kind == "call of supervisor":
            return 11, side
        if told.kind in ("below limit", "additional below limit"):
            return 6, fields["side"]
        if told.kind == "refused frame":
            return 7, SECURE
        if told.kind == "refused mode":
            return 6, SECURE if bit(int(self.told["return"][0].fields["word"], 16), 6) else NONSECURE
        if told.kind in ("fault", "refused value", "refused word", "unwritten", "additional unwritten"):
            number, swapped = EXCEPTIONS[fields["fault"]], self.system.is_swapped
            told_side = fields.get("side") if told.kind == "fault" or number == 4 else None
            sides = {3: side if swapped else SECURE, 5: NONSECURE if swapped else SECURE, 7: SECURE}
            return number, sides.get(number, told_side or side)
        return None

    def sided(self, side):
        """The sides that faults of an instruction tell: that of the code, but where Secure code sets SP_NS, or comes from a
        gateway or a call."""
        for told in self.told["fault"]:
            fault, of = told.fields["fault"], told.fields.get("side")
            if of and (fault == "INVPC" or side == NONSECURE and fault in ("STKOF", "DACCVIOL") and not self.told["function"]):
                self.equal("side of a fault", side, of)
            if fault == "INVPC" and not self.told["function"]:
                self.tell("INVPC, and no return from a call")

    def forced(self, told, last):
        """HardFault in the place of a fault's exception."""
        (number, side), fields = last, told.fields
        self.equal("what becomes of a fault", self.system.outcome(number, side), "HardFault")
        self.equal("exception that escalates", name_of(number), fields["name"])
        self.equal("side of what escalates", side, fields["of"])
        is_enabled = self.system.enabled(number, side)
        reason = "its priority is not above that of the code" if is_enabled else f"{name_of(number)} is not enabled"
        self.equal("why it escalates", reason, fields["why"])
        self.equal("side of HardFault", side if self.system.is_swapped else SECURE, fields["side"])

    def missing(self, told):
        """A vector that can't be read."""
        name = told.fields["name"]
        number = int(name.split(" ")[1]) + FIRST_INTERRUPT if name.startswith("interrupt ") else NUMBERS.get(name, 0)
        self.system.status.words[HFSR] |= VECTTBL
        table = self.core.vtor[told.fields["side"]]
        self.equal("address of a vector that isn't read", word(plus(table, 4 * number)), told.fields["address"])
        if told.kind == "unread vector":
            self.system.pend(3)
        elif not self.system.may_be_taken(number):
            self.tell(f"{name} is to be taken, and nothing below the line has made it pend")

    # ---- an exception is taken

    def enter(self, line, secure, thread, value):
        core = self.core
        target = SECURE if line.lr & 1 else NONSECURE
        self.link(line, target, secure, thread)
        if not self.system.may_be_taken(line.number):
            self.tell(f"exception {line.number} is taken, and nothing below the line has made it pend")
        priority = self.system.priority(line.number, target)
        self.equal("an exception that can be taken", True, priority < self.system.execution())
        self.system.active.add((line.number, target))
        self.want("takes", number=digit(line.number), name=name_of(line.number), side=target, priority=digit(priority),
                  dcrs=digit(bit(line.lr, 5)))
        address = plus(core.vtor[target], 4 * line.number)
        vector = None if address is None else core.memory.read(address)
        self.want("vector", address=word(address), word=word(vector))
        self.clear(target, secure)
        core.side, core.ipsr, core.it, core.r["lr"] = target, line.number, 0, line.lr
        core.spsel[target], core.event = False, 1
        core.t, core.pc = (None, None) if vector is None else (vector & 1, vector & ~1)

    def link(self, line, target, secure, thread):
        """LR of the handler: what it says of the code that is interrupted."""
        self.equal("LR: bits 31 to 7", 0x1FFFFFF, line.lr >> 7)
        self.equal("LR: FType, and bit 1", (1, 0), (bit(line.lr, 4), bit(line.lr, 1)))
        self.equal("LR: S", int(secure), bit(line.lr, 6))
        self.equal("LR: Mode", None if thread is None else int(thread), bit(line.lr, 3))
        spsel = self.core.spsel[target]
        self.equal("LR: SPSEL", None if spsel is None else int(spsel), bit(line.lr, 2))

    def clear(self, target, secure):
        """Registers that the handler finds cleared."""
        if target == SECURE and not self.core.memory.board.clears:
            return
        every = target == NONSECURE and secure
        self.want("cleared", cleared="r0-r12" if every else "r0-r3, r12")
        for name in GENERAL if every else ("r0", "r1", "r2", "r3", "r12"):
            self.core.r[name] = 0
        self.core.r["apsr"] = 0

    def lock(self, secure, thread):
        """A core that locks, and says why, but where it is locked from the start."""
        self.is_locked = True
        why = len(self.told["lockup"]) + len(self.told["last vector"])
        if why != (0 if self.step == 0 and self.core.pc is None else 1):
            self.tell(f"the core locks, and {why} lines say why")
        for told in self.told["additional"]:
            process = self.core.process(SECURE, thread)
            base = None if process is None else plus(self.core.sp[SECURE, bool(process)], -0x28)
            if secure:
                self.want("additional", stack=stack_name(process, SECURE), base=word(base), **self.push_saved(base))
