"""What instructions load, and where they go on, by their texts and the registers before them."""

import collections
import re

from full_machine import CONDITIONS, plus

# A load: the register that it fills (`pc`, or nothing for the entry of a table), the address, the size, and its sign.
Load = collections.namedtuple("Load", "register address size signed")
# What an instruction does beside listed registers: its loads, the base that it changes with its value, and its branch.
Effects = collections.namedtuple("Effects", "loads base stack branch")

ONE = re.compile(r"(?:ldr|lda|ldaex|ldrex)(s?)(b|h)?t?(?:\.w)? (\w+), (\[.*)")
PAIR = re.compile(r"ldrd (\w+), (\w+), (\[.*)")
MANY = re.compile(r"(ldm|ldmdb)(?:\.w)? (\w+)(!?), \{(.*)\}")
POP = re.compile(r"pop(?:\.w)? \{(.*)\}")
TABLE = re.compile(r"(tbb|tbh) \[(\w+), (\w+)(?:, lsl #1)?\]")
OFFSET = re.compile(r"\[(\w+)(?:, #(-?\d+))?\](!?)(?:, #(-?\d+))?")
INDEX = re.compile(r"\[(\w+), (\w+)(?:, lsl #(\d+))?\]")
DIRECT = re.compile(r"(b|bl)(?:\.w)? 0x(\w+)")
CONDITIONAL = re.compile(r"b(" + "|".join(CONDITIONS) + r")(?:\.w)? 0x(\w+)")
ZERO = re.compile(r"(cbz|cbnz) (\w+), 0x(\w+)")
THROUGH = re.compile(r"(bx|blx|bxns|blxns) (\w+)")
MOVED = re.compile(r"(mov|add) pc, (\w+)(?:, (\w+))?")
SIZES = {"b": 1, "h": 2, None: 4}


def base_of(core, name):
    """The value of a base; PC counts as that of a word."""
    value = core.get(name)
    return value & ~3 if name == "pc" and value is not None else value


def addressed(core, text):
    """The address of an operand, and the register that it changes, with its new value."""
    found = OFFSET.fullmatch(text)
    if found:
        base, offset, back, behind = found.groups()
        address = plus(base_of(core, base), int(offset or 0))
        if back:
            return address, (base, address)
        return address, (base, plus(address, int(behind))) if behind else None
    base, index, shift = INDEX.fullmatch(text).groups()
    more = core.get(index)
    return plus(base_of(core, base), None if more is None else more << int(shift or 0)), None


def many(core, base, names, back, down):
    start = core.get(base)
    first = plus(start, -4 * len(names)) if down else start
    loads = [Load(name, plus(first, 4 * at), 4, False) for at, name in enumerate(names)]
    return loads, (base, first if down else plus(start, 4 * len(names))) if back else None


def loads_of(core, text):
    """The loads of an instruction, and the base that it changes with its value."""
    found = ONE.fullmatch(text)
    if found:
        signed, size, register, operand = found.groups()
        address, base = addressed(core, operand)
        return [Load(register, address, SIZES[size], bool(signed))], base
    found = PAIR.fullmatch(text)
    if found:
        address, base = addressed(core, found[3])
        return [Load(found[1], address, 4, False), Load(found[2], plus(address, 4), 4, False)], base
    found = MANY.fullmatch(text)
    if found:
        return many(core, found[2], found[4].split(", "), found[3], found[1] == "ldmdb")
    found = POP.fullmatch(text)
    if found:
        return many(core, "sp", found[1].split(", "), True, False)
    found = TABLE.fullmatch(text)
    if found:
        size = 1 if found[1] == "tbb" else 2
        index = core.get(found[3])
        return [Load(None, plus(core.get(found[2]), None if index is None else index * size), size, False)], None
    return [], None


def is_table(text):
    return TABLE.fullmatch(text) is not None


# Where code goes on: `link` is LR where the instruction writes it; `value` has T in bit 0 where it sets T.
Branch = collections.namedtuple("Branch", "kind target")


def branch_of(core, text, length, read):
    """The branch of an instruction, by the kind `at` (T stays), `to` (bit 0 is T), `bxns`, `blx`, `blxns`. `read` has the
    value that it loads into PC, or as the entry of a table."""
    if read is not None:
        return Branch("at", plus(core.get("pc"), 2 * read)) if is_table(text) else Branch("to", read)
    found = DIRECT.fullmatch(text)
    if found:
        return Branch("at", int(found[2], 16))
    found = CONDITIONAL.fullmatch(text) or ZERO.fullmatch(text)
    if found:
        return conditional(core, found, plus(core.pc, length))
    found = THROUGH.fullmatch(text)
    if found:
        return Branch({"bx": "to"}.get(found[1], found[1]), core.get(found[2]))
    found = MOVED.fullmatch(text)
    if found:
        value = core.get(found[2])
        value = plus(core.get("pc"), value) if found[1] == "add" else value
        return Branch("at", None if value is None else value & ~1)
    return Branch("at", plus(core.pc, length))


def conditional(core, found, following):
    """A branch that is taken or not."""
    target = int(found.groups()[-1], 16)
    if found[1] in ("cbz", "cbnz"):
        value = core.get(found[2])
        holds = None if value is None else (value == 0) == (found[1] == "cbz")
    else:
        holds = core.holds(CONDITIONS.index(found[1]))
    return Branch("at", None if holds is None else target if holds else following)


def names_in(bits):
    names = [f"r{number}" for number in range(13)] + ["sp", "lr", "pc"]
    return ", ".join(name for at, name in enumerate(names) if bits >> at & 1)


def returning_text(memory, pc):
    """The text of an instruction that may return, by its code in memory; nothing of others."""
    names = [f"r{number}" for number in range(13)] + ["sp", "lr", "pc"]
    code, more = memory.read(pc, 2), memory.read(pc + 2, 2)
    if code is None:
        return None
    if code & 0xFF83 == 0x4700:
        return f"{'bxns' if code & 4 else 'bx'} {names[code >> 3 & 15]}"
    if code & 0xFF00 == 0xBD00:
        return f"pop {{{names_in(code & 0xFF | 0x8000)}}}"
    if more is None:
        return None
    base = names[code & 15]
    if code & 0xFFD0 == 0xE890 and more >> 15:
        return f"ldm.w {base}{'!' if code & 0x20 else ''}, {{{names_in(more)}}}"
    if code & 0xFFD0 == 0xE910 and more >> 15:
        return f"ldmdb {base}{'!' if code & 0x20 else ''}, {{{names_in(more)}}}"
    if code & 0xFF7F == 0xF85F and more >> 12 == 15:
        return f"ldr.w pc, [pc, #{(1 if code & 0x80 else -1) * (more & 0xFFF)}]"
    if code & 0xFFF0 == 0xF8D0 and more >> 12 == 15:
        return f"ldr.w pc, [{base}, #{more & 0xFFF}]"
    if code & 0xFFF0 == 0xF850 and more >> 12 == 15:
        return loading_text(base, more, names)
    return None


def loading_text(base, more, names):
    """A load of PC with an offset of 8 bits, or with an index."""
    if more & 0xFC0 == 0:
        return f"ldr.w pc, [{base}, {names[more & 15]}, lsl #{more >> 4 & 3}]"
    offset = (more & 0xFF) * (1 if more & 0x200 else -1)
    if not more & 0x400:
        return f"ldr.w pc, [{base}], #{offset}"
    return f"ldr.w pc, [{base}, #{offset}]{'!' if more & 0x100 else ''}"
