"""A machine that is worked out from the lines of view `all`: registers, stack pointers and memory, as far as they are known.

It is written from docs/PROFILE.md and docs/MANUAL.md, for checking what view `full` tells, and shares nothing with the
program. What isn't known is None. It runs no instruction: registers are those that the lines list, and only what no line lists
is worked out.
"""

import collections
import pathlib
import re
import struct

SECURE, NONSECURE = "S", "NS"
PRIVATE = range(0xE0000000, 0xE0100000)
VIEWS = {0xE000E000: "", 0xE002E000: "_NS"}
FNC_RETURN = (0xFEFFFFFE, 0xFEFFFFFF)
EXC_RETURN = 0xFF000000
SIGNATURE = 0xFEFA125B
CONDITIONS = ["eq", "ne", "cs", "cc", "mi", "pl", "vs", "vc", "hi", "ls", "ge", "lt", "gt", "le"]

# System registers by their offsets; of an array the first, how many words it has, and from which number on.
REGISTERS = {
    0x004: "ICTR", 0x010: "SYST_CSR", 0x014: "SYST_RVR", 0x018: "SYST_CVR", 0x01C: "SYST_CALIB", 0xD00: "CPUID", 0xD04: "ICSR",
    0xD08: "VTOR", 0xD0C: "AIRCR", 0xD14: "CCR", 0xD18: "SHPR1", 0xD1C: "SHPR2", 0xD20: "SHPR3", 0xD24: "SHCSR", 0xD28: "CFSR",
    0xD2C: "HFSR", 0xD34: "MMFAR", 0xD38: "BFAR", 0xD90: "MPU_TYPE", 0xD94: "MPU_CTRL", 0xD98: "MPU_RNR", 0xD9C: "MPU_RBAR",
    0xDA0: "MPU_RLAR", 0xDA4: "MPU_RBAR_A1", 0xDAC: "MPU_RBAR_A2", 0xDB4: "MPU_RBAR_A3", 0xDA8: "MPU_RLAR_A1",
    0xDB0: "MPU_RLAR_A2", 0xDB8: "MPU_RLAR_A3", 0xDC0: "MPU_MAIR0", 0xDC4: "MPU_MAIR1", 0xDD0: "SAU_CTRL", 0xDD4: "SAU_TYPE",
    0xDD8: "SAU_RNR", 0xDDC: "SAU_RBAR", 0xDE0: "SAU_RLAR", 0xDE4: "SFSR", 0xDE8: "SFAR", 0xF00: "STIR",
}
ARRAYS = {0x100: ("NVIC_ISER", 32), 0x180: ("NVIC_ICER", 32), 0x200: ("NVIC_ISPR", 32), 0x280: ("NVIC_ICPR", 32),
          0x300: ("NVIC_IABR", 32), 0x380: ("NVIC_ITNS", 32), 0x400: ("NVIC_IPR", 64)}
for first, (array, count) in ARRAYS.items():
    REGISTERS.update({first + 4 * number: f"{array}{number}" for number in range(count)})

# Those of a board with a mover.
MOVER_REGISTERS = {0xC00: "MOVER_SRC", 0xC04: "MOVER_DST", 0xC08: "MOVER_COUNT", 0xC0C: "MOVER_CTRL"}

DEMO = """
secure_vtor = 0x10000000
nonsecure_vtor = 0x00200000
interrupts = 8
[[region]]
base = 0x10000000
size = 0x8000
[[region]]
base = 0x10008000
size = 0x8000
[[region]]
base = 0x00200000
size = 0x10000
[[region]]
base = 0x30000000
size = 0x8000
[[region]]
base = 0x20000000
size = 0x8000
"""


def system_name(address, board):
    """The name of the system register at an address of the private space."""
    suffix = VIEWS.get(address & 0xFFFFF000)
    name = {**REGISTERS, **(MOVER_REGISTERS if board.has_mover else {})}.get(address & 0xFFC)
    return "reserved" if suffix is None or name is None else name + suffix


class Region(collections.namedtuple("Region", "base size kind side")):
    """A region of memory."""

    def has(self, address):
        return self.base <= address < self.base + self.size


# A region of the SAU.
Unit = collections.namedtuple("Unit", "base limit nsc")


class Board:
    """Of a board file what is asked here: vector tables, profile, interrupts, the mover, memory, and what is Non-secure."""

    def __init__(self, text):
        keys = {}
        for line in text.splitlines():
            found = re.match(r"\s*(\w+)\s*=\s*(\"[^\"]*\"|\w+)", line)
            if found:
                keys.setdefault(found[1], []).append(found[2].strip('"'))
        self.vtor = {side: int(keys[f"{name}_vtor"][0], 0) for side, name in ((SECURE, "secure"), (NONSECURE, "nonsecure"))}
        self.clears = keys.get("profile", ["v8.0"])[0] == "v8.1"
        self.interrupts = int(keys["interrupts"][0], 0)
        self.has_mover = keys.get("mover", ["false"])[0] == "true"
        tables = re.split(r"\[\[(region|sau)\]\]", text)[1:]
        parts = [(name, values_in(table)) for name, table in zip(tables[::2], tables[1::2])]
        self.regions = [
            Region(int(it["base"], 0), int(it["size"], 0), it.get("kind"), it.get("side")) for name, it in parts if name == "region"]
        self.units = [Unit(int(it["base"], 0), int(it["limit"], 0), it["nsc"]) for name, it in parts if name == "sau"]

    def is_mapped(self, address, size):
        return all(any(it.has(at) for it in self.regions) for at in range(address, address + size))

    def allows(self, side, address, is_store=False):
        """Whether code of a side may read a word there, or store it, by attribution and the map."""
        return all(self.allows_byte(side, at, is_store) for at in range(address, address + 4))

    def allows_byte(self, side, address, is_store):
        region = next((it for it in self.regions if it.has(address)), None)
        if region is None or is_store and region.kind != "ram":
            return False
        units = [it for it in self.units if it.base <= address <= it.limit]
        is_nonsecure = region.side == "nonsecure" and len(units) == 1 and units[0].nsc == "false"
        return side == SECURE or is_nonsecure


def values_in(text):
    return {name: value.strip('"') for name, value in re.findall(r"^\s*(\w+)\s*=\s*(\"[^\"]*\"|\w+)", text, re.M)}


def segments_of(data):
    """The segments of an image: an ELF file, or a list of hexadecimal lines."""
    if data[:4] != b"\x7fELF":
        for line in data.decode().splitlines():
            if line:
                address, content = line.split()
                yield int(address, 16), bytes.fromhex(content)
        return
    (table,), (size, count) = struct.unpack_from("<I", data, 28), struct.unpack_from("<HH", data, 42)
    for at in range(table, table + size * count, size):
        kind, offset, _, address, in_file, _ = struct.unpack_from("<6I", data, at)
        if kind == 1:
            yield address, data[offset:offset + in_file]


class Memory:
    """Bytes by their addresses; None is a byte that isn't known. What isn't written is 0."""

    def __init__(self, board, images):
        self.board, self.bytes, self.is_known = board, {}, True
        for image in images:
            for address, content in segments_of(image):
                self.bytes.update(zip(range(address, address + len(content)), content))

    def read(self, address, size=4):
        """The number there; None where it isn't known, or where there is no memory."""
        places = [(address + at) & 0xFFFFFFFF for at in range(size)]
        found = [self.bytes.get(it, 0) for it in places]
        if not self.is_known or None in found or not all(self.board.is_mapped(it, 1) for it in places):
            return None
        return int.from_bytes(bytes(found), "little")

    def write(self, address, size, value):
        for at in range(size):
            self.bytes[(address + at) & 0xFFFFFFFF] = None if value is None else value >> 8 * at & 0xFF

    def forget_all(self):
        self.is_known = False

    def forget(self, first, end):
        self.bytes.update((at & 0xFFFFFFFF, None) for at in range(first, end))


def demo_or_file(folder, name):
    return Board(DEMO if name == "@demo" else (pathlib.Path(folder) / name).read_text(encoding="utf-8"))


def plus(value, more):
    return None if value is None or more is None else (value + more) & 0xFFFFFFFF


class Core:
    """The registers of both sides, and where code goes on."""

    def __init__(self, memory):
        self.memory = memory
        self.r = {f"r{number}": 0 for number in range(13)}
        self.r.update(lr=0xFFFFFFFF, apsr=0)
        self.sp = {(side, process): 0 for side in (SECURE, NONSECURE) for process in (False, True)}
        self.limit = dict(self.sp)
        self.spsel = {SECURE: False, NONSECURE: False}
        self.npriv = dict(self.spsel)
        self.vtor = dict(memory.board.vtor)
        self.side, self.ipsr, self.it, self.t, self.pc = SECURE, 0, 0, None, None
        self.event, self.sleep = 0, ""
        table = self.vtor[SECURE]
        stack, start = memory.read(table), memory.read(table + 4)
        if stack is not None and start is not None:
            self.sp[SECURE, False] = stack & ~3
            self.t, self.pc = start & 1, start & ~1

    def process(self, side=None, thread=None):
        """Whether PSP of a side is in use, in Thread mode or not."""
        thread = thread if thread is not None else self.is_thread()
        if thread is None:
            return None
        return thread and self.spsel[side or self.side]

    def is_thread(self):
        return None if self.ipsr is None else self.ipsr == 0

    def bank(self):
        process = self.process()
        return None if process is None else (self.side, bool(process))

    def get(self, name):
        """A register by its name in a text, SP that in use, and PC as it reads."""
        if name == "sp":
            return self.sp.get(self.bank())
        if name == "pc":
            return plus(self.pc, 4)
        return self.r[name]

    def holds(self, condition):
        """Whether a condition holds; None where the flags aren't known."""
        flags = self.r["apsr"]
        if flags is None:
            return None
        n, z, c, v = (flags >> bit & 1 for bit in (31, 30, 29, 28))
        told = [z, c, n, v, c and not z, n == v, not z and n == v][condition >> 1] if condition < 14 else True
        return bool(told) != bool(condition & 1 and condition < 14)

    def is_skipped(self):
        """Whether an IT block skips the next instruction."""
        if self.it is None:
            return None
        if self.it & 0xF == 0:
            return False
        holds = self.holds(self.it >> 4)
        return None if holds is None else not holds

    def advanced_it(self):
        if self.it is None:
            return None
        return 0 if self.it & 7 == 0 else self.it & 0xE0 | self.it << 1 & 0x1F
