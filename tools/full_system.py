"""What stores to system registers tell of exceptions: priorities, what is enabled, what pends, both SysTicks, and the mover."""

from full_machine import NONSECURE, SECURE
from full_mover import Mover

NAMES = {2: "NMI", 3: "HardFault", 4: "MemManage", 5: "BusFault", 6: "UsageFault", 7: "SecureFault", 11: "SVCall", 14: "PendSV",
         15: "SysTick"}
NUMBERS = {name: number for number, name in NAMES.items()}
FIRST_INTERRUPT = 16
BANKED = (3, 4, 6, 11, 14, 15)
# Exceptions by the bits of SHCSR that enable them, and by their bytes in SHPR1 to SHPR3.
ENABLES = {4: 16, 5: 17, 6: 18, 7: 19}
BYTES = {0xD18: 4, 0xD19: 5, 0xD1A: 6, 0xD1B: 7, 0xD1F: 11, 0xD22: 14, 0xD23: 15}
# The exceptions of faults.
EXCEPTIONS = {
    "IACCVIOL": 4, "DACCVIOL": 4, "MSTKERR": 4, "MUNSTKERR": 4, "IBUSERR": 5, "PRECISERR": 5, "STKERR": 5, "UNSTKERR": 5,
    "UNDEFINSTR": 6, "INVSTATE": 6, "INVPC": 6, "NOCP": 6, "STKOF": 6, "UNALIGNED": 6, "DIVBYZERO": 6, "DEBUGEVT": 3,
    "INVEP": 7, "INVIS": 7, "INVER": 7, "AUVIOL": 7, "INVTRAN": 7,
}
# Their bits in CFSR, of those with addresses the VALID bit, too, and in SFSR.
FAULT_BITS = {
    "IACCVIOL": 1 << 0, "DACCVIOL": 1 << 1 | 1 << 7, "MUNSTKERR": 1 << 3, "MSTKERR": 1 << 4, "IBUSERR": 1 << 8,
    "PRECISERR": 1 << 9 | 1 << 15, "UNSTKERR": 1 << 11, "STKERR": 1 << 12, "UNDEFINSTR": 1 << 16, "INVSTATE": 1 << 17,
    "INVPC": 1 << 18, "NOCP": 1 << 19, "STKOF": 1 << 20, "UNALIGNED": 1 << 24, "DIVBYZERO": 1 << 25,
}
SECURE_BITS = {"INVEP": 1 << 0, "INVIS": 1 << 1, "INVER": 1 << 2, "AUVIOL": 1 << 3, "INVTRAN": 1 << 4}
SFARVALID, VECTTBL, FORCED, DEBUGEVT, BUS_FAULTS = 1 << 6, 1 << 1, 1 << 30, 1 << 31, 0xFF00
CFSR, HFSR, MMFAR, BFAR, SFSR, SFAR = 0xD28, 0xD2C, 0xD34, 0xD38, 0xDE4, 0xDE8
SYST_CSR, SYST_RVR, SYST_CVR = 0x010, 0x014, 0x018
ICSR, VTOR, AIRCR, SHCSR, STIR = 0xD04, 0xD08, 0xD0C, 0xD24, 0xF00
ISPR, ITNS, IPR = 0x200, 0x380, 0x400
PENDED_BY_ICSR = {31: 2, 28: 14, 26: 15}
SIDES = (SECURE, NONSECURE)


def name_of(number):
    return f"interrupt {number - FIRST_INTERRUPT}" if number >= FIRST_INTERRUPT else NAMES.get(number, "reserved")


def view_of(side, address):
    """Whose view code of a side has at an address; None where there is none."""
    if address & 0xFFFFF000 == 0xE000E000:
        return side
    return NONSECURE if address & 0xFFFFF000 == 0xE002E000 and side == SECURE else None


class Timer:
    """SysTick of a side."""

    def __init__(self):
        self.control = self.reload = self.value = 0

    def count(self):
        """Whether it pends at the beginning of a step."""
        if not self.control & 1:
            return False
        if self.value > 1:
            self.value -= 1
            return False
        ends = self.value == 1
        self.value = 0 if ends else self.reload
        return ends and bool(self.control & 2)


class Status:
    """What faults leave in the status registers. BFSR stands once, MMFSR and UFSR for each side."""

    def __init__(self):
        self.words = {CFSR: {side: 0 for side in SIDES}, HFSR: 0, SFSR: 0}
        self.addresses = {MMFAR: {side: 0 for side in SIDES}, BFAR: 0, SFAR: 0}

    def note(self, fault, side, address, of_word):
        """A fault of an instruction, or of a word of a frame, which leaves the address registers."""
        if fault == "DEBUGEVT":
            self.words[HFSR] |= DEBUGEVT
        elif fault in SECURE_BITS:
            self.words[SFSR] |= SECURE_BITS[fault] | (SFARVALID if fault == "AUVIOL" and not of_word else 0)
            if fault == "AUVIOL" and not of_word:
                self.addresses[SFAR] = address
        else:
            bits = FAULT_BITS[fault]
            self.words[CFSR][SECURE if bits & BUS_FAULTS else side] |= bits
            if fault == "DACCVIOL":
                self.addresses[MMFAR][side] = address
            elif fault == "PRECISERR":
                self.addresses[BFAR] = address

    def read(self, view, offset, is_swapped):
        """The word of a view; None of a register that isn't kept here."""
        if offset == CFSR:
            bus = self.words[CFSR][SECURE] & BUS_FAULTS if view == SECURE or is_swapped else 0
            return self.words[CFSR][view] & ~BUS_FAULTS | bus
        if offset == MMFAR:
            return self.addresses[MMFAR][view]
        if offset in (HFSR, BFAR):
            return {**self.words, **self.addresses}[offset] if view == SECURE or is_swapped else 0
        if offset in (SFSR, SFAR):
            return {**self.words, **self.addresses}[offset] if view == SECURE else 0
        return None

    def write(self, view, offset, size, value, is_swapped):
        """Ones clear, and a write of an address register gives it its value."""
        if CFSR <= offset < CFSR + 4:
            ones = value << 8 * (offset - CFSR)
            self.words[CFSR][view] &= ~(ones & ~BUS_FAULTS)
            if view == SECURE or is_swapped:
                self.words[CFSR][SECURE] &= ~(ones & BUS_FAULTS)
        elif size == 4 and offset == MMFAR:
            self.addresses[MMFAR][view] = value
        elif size == 4 and (view == SECURE or is_swapped and offset in (HFSR, BFAR)):
            if offset in (HFSR, SFSR):
                self.words[offset] &= ~value
            elif offset in (BFAR, SFAR):
                self.addresses[offset] = value


class System:
    """The system registers of both sides, as far as stores tell them."""

    def __init__(self, core):
        self.core = core
        self.timers = {side: Timer() for side in SIDES}
        self.mover = Mover(core.memory.board)
        self.priorities, self.enables, self.interrupt_sides = {}, {}, {}
        self.groups = {side: 0 for side in SIDES}
        self.pris, self.is_swapped = 0, 0
        # What is active, with its side, and the masks of both sides by their names.
        self.active = set()
        self.masks = {name: {side: 0 for side in SIDES} for name in ("primask", "basepri", "faultmask")}
        self.status = Status()
        # Exceptions that may pend, by number.
        self.pending = set()

    def pend(self, number):
        self.pending.add(number)

    def pend_interrupt(self, interrupt, side):
        """Pends an interrupt that the board has and that is of a side; whether it does."""
        number = FIRST_INTERRUPT + interrupt
        told = interrupt < self.core.memory.board.interrupts and bool(self.interrupt_sides.get(number)) == (side == NONSECURE)
        if told:
            self.pend(number)
        return told

    def may_be_taken(self, number):
        """Whether an exception was pended; it doesn't pend any more."""
        told = number in self.pending
        self.pending.discard(number)
        return told

    def enabled(self, number, side):
        """Whether an exception that a fault raises is enabled."""
        return number not in ENABLES or self.enables.get((number, side), False)

    def outcome(self, number, side):
        """What becomes of an exception that a fault raises: itself, HardFault in its place, or a lockup."""
        execution = self.execution()
        if self.enabled(number, side) and self.priority(number, side) < execution:
            return "itself"
        return "HardFault" if self.priority(3, side if self.is_swapped else SECURE) < execution else "lockup"

    def mask(self, name, side, value):
        """A write of a mask; FAULTMASK is set below priority -1 alone."""
        if value is None:
            return
        if name == "basepri_max":
            old = self.masks["basepri"][side]
            if value & 0xFF and (value & 0xFF < old or not old):
                self.masks["basepri"][side] = value & 0xFF
        elif name != "faultmask" or not value & 1 or self.execution() > -1:
            self.masks[name][side] = value & (0xFF if name == "basepri" else 1)

    def execution(self):
        """The execution priority."""
        active = [self.priority(*it) for it in self.active]
        return min([256, *active, *(self.masked(side) for side in SIDES)])

    def masked(self, side):
        """What the masks of a side count as."""
        first = 0x80 if side == NONSECURE and self.pris else 0
        base = self.masks["basepri"][side]
        found = [256, self.grouped(base, side) if base else 256]
        if self.masks["primask"][side]:
            found.append(first)
        if self.masks["faultmask"][side]:
            found.append((-3 if self.is_swapped else -1) if side == SECURE else -1 if self.is_swapped else first)
        return min(found)

    def end(self, number, side):
        """A return from an exception, by a value with ES of this side: what isn't active any more, and FAULTMASK."""
        raw = min([256, *(self.priority(*it) for it in self.active)])
        if raw < 0:
            ended = [it for it in self.active if it[0] in (2, 3) and self.priority(*it) == raw]
            self.active -= set(sorted(ended, key=lambda it: it[1] != SECURE)[:1])
            return
        self.active = {it for it in self.active if it[0] != number or number in BANKED and it[1] != side}
        if number != 2:
            self.masks["faultmask"][side] = 0

    def store(self, side, address, size, value):
        """A store of code of a side."""
        view, offset = view_of(side, address), address & 0xFFF
        if view is None:
            return
        self.status.write(view, offset, size, value, self.is_swapped)
        for at in range(size):
            self.byte(view, offset + at, value >> 8 * at & 0xFF)
        if size == 4:
            self.word(view, offset, value)

    def read(self, side, address):
        """The word of a status register or of the mover; None of others."""
        view, offset = view_of(side, address), address & 0xFFF
        if view is None:
            return None
        found = self.status.read(view, offset, self.is_swapped)
        return self.mover.read(view, offset) if found is None else found

    def byte(self, view, offset, value):
        """Priorities, which bytes write, too."""
        if offset in BYTES:
            number = BYTES[offset]
            if number in BANKED:
                self.priorities[number, view] = value
            elif view == SECURE or number == 5 and self.is_swapped:
                self.priorities[number, None] = value
        elif IPR <= offset < IPR + 0x100:
            number = FIRST_INTERRUPT + offset - IPR
            if view == SECURE or self.interrupt_sides.get(number):
                self.priorities[number, None] = value

    def word(self, view, offset, value):
        timer = self.timers[view]
        self.mover.write(view, offset, value)
        if offset == SYST_CSR:
            timer.control = value
        elif offset == SYST_RVR:
            timer.reload = value & 0xFFFFFF
        elif offset == SYST_CVR:
            timer.value = 0
        elif offset == VTOR:
            self.core.vtor[view] = value & ~0x7F
        elif offset == AIRCR and value >> 16 == 0x05FA:
            self.groups[view] = value >> 8 & 7
            if view == SECURE:
                self.pris, self.is_swapped = value >> 14 & 1, value >> 13 & 1
        elif offset == SHCSR:
            for number, bit in ENABLES.items():
                self.enable(view, number, bool(value >> bit & 1))
        elif offset == ICSR:
            for bit, number in PENDED_BY_ICSR.items():
                if value >> bit & 1:
                    self.pend(number)
        elif offset == STIR:
            self.pend(FIRST_INTERRUPT + (value & 0x1FF))
        elif ISPR <= offset < ISPR + 0x80:
            self.bits(offset - ISPR, value, lambda number, is_set: is_set and self.pend(number))
        elif ITNS <= offset < ITNS + 0x80 and view == SECURE:
            self.bits(offset - ITNS, value, self.interrupt_sides.__setitem__)

    def enable(self, view, number, is_set):
        if number in (4, 6):
            self.enables[number, view] = is_set
        elif view == SECURE or number == 5 and self.is_swapped:
            self.enables[number, SECURE] = self.enables[number, NONSECURE] = is_set

    def bits(self, offset, value, do):
        for bit in range(32):
            do(FIRST_INTERRUPT + 8 * offset + bit, bool(value >> bit & 1))

    def priority(self, number, side):
        """The priority of an exception as it counts."""
        if number == 2:
            return -2
        if number == 3:
            return -3 if side == SECURE and self.is_swapped else -1
        return self.grouped(self.priorities.get((number, side if number in BANKED else None), 0), side)

    def grouped(self, priority, side):
        """A priority without its subpriority, as it counts."""
        group = priority & ~((2 << self.groups[side]) - 1)
        return 0x80 + (group >> 1) if side == NONSECURE and self.pris else group
