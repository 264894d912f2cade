"""What the table of system registers says of bits and of the Non-secure view, against what the program does.

Secure code on a board of its own writes each word of the table by both views and reads it by both, and the program's
trace tells what it read. The same is worked out from the columns of the table. The words of the table that say what a
bit does are listed here; a cell with other words can't be read.
"""

import collections
import pathlib
import re
import subprocess
import sys
import tempfile

INTERRUPTS, REGIONS = 40, {"S": 8, "N": 4}
BOARD = f"""secure_vtor = 0x10000000
nonsecure_vtor = 0x00200000
interrupts = {INTERRUPTS}
sau_regions = 8
mpu_secure = {REGIONS["S"]}
mpu_nonsecure = {REGIONS["N"]}
profile = "v8.1"
mover = true
[[region]]
base = 0x10000000
size = 0x100000
kind = "rom"
side = "secure"
[[region]]
base = 0x30000000
size = 0x1000
kind = "ram"
side = "secure"
"""
# Where the system control space stands, by the view that Secure code has of it there.
SPACE = {"S": 0xE000E000, "N": 0xE002E000}
ONES = 0xFFFFFFFF
# The interrupts that are Non-secure, in the first two words of an array.
TARGETS = [0x0000FF00, 0x0F]

# What a bit is: whose it is in the two views, and what a write of it does.
#   views: own (one for each side), shared (one), secure (one, and 0 in the Non-secure view), bus (one, which that view has
#          while BFHFNMINS is 1), told (one, which that view can't write), target (one, of an interrupt)
#   does:  write, none, set and clear (by ones), zero (by anything), any (reads as either)
#   value: what it reads as by the Secure and by the Non-secure view where no write changes it
Bit = collections.namedtuple("Bit", "view does value")


def unread(what):
    sys.exit(f"check_registers: can't read: {what}")


def mask(high, low):
    return (1 << (high + 1)) - (1 << low)


def array(does):
    """A word of an array of interrupts, by its number: the bits that are there, what a write does, and the value."""
    return lambda word: (ONES if word == 0 else (1 << INTERRUPTS - 32) - 1 if word == 1 else 0, does, 0)


def alone(does, value):
    return lambda word: (0, does, value)


# Cells that say in words what the bits are.
WORDS = {
    "the board's interrupts less 1, divided by 32": alone("none", (INTERRUPTS - 1) // 32),
    "whether each interrupt is enabled; ones enable": array("set"),
    "whether each interrupt pends; ones set it pending": array("set"),
    "the same; ones disable": array("clear"),
    "the same; ones make it not pending": array("clear"),
    "whether each interrupt is active": array("any"),
    "1 for each interrupt that is Non-secure; nothing else of it changes by a write": array("write"),
    "the priority of each interrupt, 8 bits": lambda word: (ONES if word < INTERRUPTS // 4 else 0, "write", 0),
    "reads 0; a write sets the interrupt of its bits 8:0 pending": alone("none", 0),
}
# A field of a cell: its name, its bits, and what is said of it.
FIELD = re.compile(
    r"(?:of (?:the region of RNR|that region): |priority: |priorities: )?(?:the (?:base|limit|number of a region), )?"
    r"(?:(\w+) )?(\d+)(?::(\d+))?(?: \(`v8\.1`\))?(, which a read clears and a write keeps)?"
)
PASSED = ("see below", "all others read 0 (own)")
# Bits that tell what pends and what runs, and how a channel of the mover ends.
TELLING = ("VECTACTIVE", "RETTOBASE", "VECTPENDING", "ISRPENDING", "GO", "DONE", "ERROR")
# The bits of ICSR by the exceptions that they pend.
PENDING = {"SysTick": "PENDSTSET", "PendSV": "PENDSVSET", "NMI": "PENDNMISET"}


class Cell:
    """What a cell of bits says: the fields, each with its bits and what a write does, and what reads as a value."""

    def __init__(self, text, enabled):
        self.fields, self.value = {}, {"S": 0, "N": 0}
        for clause in text.split("; "):
            for part in re.split(r", (?=[A-Z]\w* \d)", clause):
                self.take(part, text)
        if text == "see below":
            self.fields = {name: (1 << bit, "write") for name, bit in enabled.items()}

    def keep(self, views):
        for view, value in views.items():
            self.value[view] |= value

    def turn(self, does):
        self.fields = {name: (bits, does) for name, (bits, _) in self.fields.items()}

    def take(self, part, text):
        if found := re.fullmatch(r"0x([0-9A-F]+)(?: \(own\)| in 31:16)?|0", part):
            number = int(found.group(1) or "0", 16) << (16 if part.endswith(" in 31:16") else 0)
            self.keep({"S": number, "N": number})
        elif found := re.fullmatch(r"bit (\d+) reads 1", part):
            self.keep({"S": 1 << int(found.group(1)), "N": 1 << int(found.group(1))})
        elif found := re.fullmatch(r"how many regions there are, (\d+):(\d+)", part):
            high, low = map(int, found.groups())
            self.fields["regions"] = mask(high, low), "none"
            self.keep({view: count << low for view, count in REGIONS.items()})
        elif part == "takes no write":
            self.turn("none")
        elif part == "ones clear":
            self.turn("clear")
        elif part == "a write of any number makes it 0, and clears COUNTFLAG":
            self.turn("zero")
        elif part not in PASSED:
            name, high, low, telling = (FIELD.fullmatch(part) or unread(text)).groups()
            does = "any" if telling or name in TELLING else "write"
            self.fields[name or "all"] = mask(int(high), int(low or high)), does


def of_words(text, word):
    """The same of a cell that says in words what the bits are, where it is one."""
    plain = text.replace("; takes no write", "")
    if plain not in WORDS:
        return None
    bits, does, value = WORDS[plain](word)
    cell = Cell("0", {})
    cell.fields["all"] = bits, does
    cell.keep({"S": value, "N": value})
    return cell


def views_of(text, fields):
    """Whose each field is, by a cell of the Non-secure view."""
    whole = {"its own": "own", "while BFHFNMINS is 1": "bus", "reads 0 and takes no write": "secure"}
    whole[", which takes no write"] = "told"
    views = dict.fromkeys(fields, "shared")
    for clause in text.split("; "):
        if clause == "VECTPENDING 1 for a Secure exception (own)":
            continue
        names, rule = (re.fullmatch(f"(.*?) ?({'|'.join(whole)})", clause) or unread(text)).groups()
        named = [PENDING.get(name, name) if PENDING.get(name) in fields else name for name in names.split(" and ")]
        for name in named if names else list(fields):
            if name in fields:
                views[name] = whole[rule]
            elif name != "NMI":  # Whether NMI is enabled has no bit.
                unread(text)
    return views


def seen_by(text, fields):
    """Whose the fields are, and whose all other bits."""
    if text == "the same":
        return dict.fromkeys(fields, "shared"), "shared"
    if text in ("0", "0; takes no write", "sets Non-secure interrupts alone"):
        return dict.fromkeys(fields, "secure"), "secure"
    if text == "those of Non-secure interrupts; the others read 0 and take no write":
        return dict.fromkeys(fields, "target"), "shared"
    return views_of(text, fields), "shared"


def bits_of(row, rows, enabled):
    """What each bit of a word is, as the cells of its row say."""
    if found := re.match(r"(MPU_R[BL]AR) of (?:the region of RNR with its bits 1:0 replaced|these regions)", row.bits):
        return bits_of(next(other for other in rows if other.name == found.group(1)), rows, enabled)
    cell = of_words(row.bits, word_of(row.offset)) or Cell(row.bits, enabled)
    views, others = seen_by(row.view, cell.fields)
    value = [(cell.value["S"] >> place & 1, cell.value["N"] >> place & 1) for place in range(32)]
    told = [Bit(others, "none", value[place]) for place in range(32)]
    for name, (bits, does) in cell.fields.items():
        for place in range(32):
            if bits >> place & 1:
                told[place] = Bit(views[name], does, value[place])
    return told


def word_of(offset):
    """The number of a word in its array."""
    return (offset - 0x400) // 4 if offset >= 0x400 else offset % 128 // 4


def target_of(offset):
    """The bits of a word of an array that belong to Non-secure interrupts."""
    word = word_of(offset)
    if 0x400 <= offset < 0x500:
        flags = [TARGETS[n // 32] >> n % 32 & 1 if n < INTERRUPTS else 0 for n in range(4 * word, 4 * word + 4)]
        return sum(0xFF << 8 * lane for lane in range(4) if flags[lane])
    return TARGETS[word] if word < len(TARGETS) else 0


# ---- what is done


def writes_of(name):
    """What is written to a word, by a view and a value; it is read by both views before and after each."""
    if name == "ICSR":  # NMI would be taken, so it isn't pended. Bits 25 and 27 make not pending.
        return [(view, value) for view in "SN" for value in (1 << 26 | 1 << 28, 1 << 25 | 1 << 27)]
    zeros, ones = (0x05FA0000, 0x05FAFFFF) if name == "AIRCR" else (0, ONES)
    keyless = [("S", ONES), ("N", ONES)] if name == "AIRCR" else []
    return [("S", ones), ("N", zeros), ("S", zeros), ("N", ones), *keyless, ("S", zeros), ("N", zeros)]


def code_of(actions):
    """The source of Secure code that writes words, and reads those whose value is None."""
    lines = [".org 0x10000000", ".word 0x30001000", ".word 0x10000009", "cpsid i"]
    for address, value in actions:
        lines += [f"movw r0, #{address % 65536}", f"movt r0, #{address // 65536}"]
        if value is None:
            lines += ["movs r2, #0", "ldr r2, [r0, #0]"]
        else:
            lines += [f"movw r1, #{value % 65536}", f"movt r1, #{value // 65536}", "str r1, [r0, #0]"]
    return "\n".join(lines) + "\n"


def read_by(program, actions):
    """The numbers that the code reads, in order."""
    steps = 1 + sum(4 if value is None else 5 for _, value in actions)
    files = {"board": BOARD, "source": code_of(actions), "none": ""}
    with tempfile.TemporaryDirectory() as folder:
        for name, text in files.items():
            pathlib.Path(folder, name).write_text(text)
        made = subprocess.run([program, "asm", "source"], cwd=folder, stdout=subprocess.PIPE, check=True)
        pathlib.Path(folder, "image").write_bytes(made.stdout)
        words = [program, "run", "board", "image", "none", "@none", str(steps), "--view", "all"]
        run = subprocess.run(words, cwd=folder, stdout=subprocess.PIPE, check=True)
    trace = run.stdout.decode().splitlines()
    if wrong := next((line for line in trace if not re.match(r"\d+ s N ", line)), None):
        sys.exit(f"check_registers: the code that reads the registers didn't run to its end: {wrong}")
    loads = [re.search(r" r2=([0-9a-f]{8})", line) for line in trace if " ldr r2, [r0, #0]" in line]
    return [int(found.group(1), 16) if found else 0 for found in loads]


# ---- what is wanted


class Word:
    """A word with its bits for each view as they are now, by what the table says and what was read first."""

    def __init__(self, row, bits, bfhfnmins, first):
        self.row, self.bits = row, bits
        target = target_of(row.offset)
        # Whether the Non-secure view has a bit, and whether it may write it.
        rules = {"shared": (1, 1), "secure": (0, 0), "bus": (bfhfnmins, bfhfnmins), "told": (1, 0), "own": (1, 1)}
        self.rules = [rules.get(bit.view) or (target >> place & 1,) * 2 for place, bit in enumerate(bits)]
        self.now = {
            view: [bit.value[at] if bit.does == "none" else first[at] >> place & 1 for place, bit in enumerate(bits)]
            for at, view in enumerate("SN")
        }

    def bank(self, place, view):
        return self.now[view if self.bits[place].view == "own" else "S"]

    def write(self, view, value):
        if self.row.name == "AIRCR" and value >> 16 != 0x05FA:
            return
        for place, bit in enumerate(self.bits):
            bank, one = self.bank(place, view), value >> place & 1
            if view == "S" or self.rules[place][1]:
                changed = {"write": one, "set": bank[place] | one, "clear": bank[place] & ~one, "zero": 0}
                bank[place] = changed.get(bit.does, bank[place])

    def differing(self, view, value):
        """The bits of a value that aren't those of the table."""
        wrong = 0
        for place, bit in enumerate(self.bits):
            has = view == "S" or self.rules[place][0]
            wanted = self.bank(place, view)[place] if has else 0
            if not (has and bit.does == "any") and value >> place & 1 != wanted:
                wrong |= 1 << place
        return wrong


def actions_of(rows, bfhfnmins):
    """All that is done: the switches, and what is written to each word and read of it."""
    set_up = [(SPACE["S"] + 0xD0C, 0x05FA0000 | bfhfnmins << 13)]
    targets = [(SPACE["S"] + 0x380 + 4 * word, value) for word, value in enumerate(TARGETS)]
    actions = set_up + targets
    for row in rows:
        reads = [(SPACE[view] + row.offset, None) for view in "SN"]
        actions += reads
        for view, value in writes_of(row.name):
            actions += [(SPACE[view] + row.offset, value), *reads]
        if row.name.startswith("NVIC_ITNS"):
            actions += targets
    return actions


def differing(program, rows, enabled, bfhfnmins):
    found = iter(read_by(program, actions_of(rows, bfhfnmins)))
    for row in rows:
        first = [next(found), next(found)]
        word = Word(row, bits_of(row, rows, enabled), bfhfnmins, first)
        done = "before a write"
        for view, value in [(None, 0), *writes_of(row.name)]:
            if view:
                word.write(view, value)
                done = f"after {value:08x} by {view}"
                first = [next(found), next(found)]
            for by, got in zip("SN", first):
                if wrong := word.differing(by, got):
                    yield f"{row.name}: {done}, with BFHFNMINS {bfhfnmins}, view {by} reads {got:08x}; not the table's: bits {wrong:08x}"
                    break


def differences(program, rows, enabled):
    """The differences of rows, each with an offset, a name, the bits and the Non-secure view; `enabled` are the bits of
    SHCSR that enable exceptions, by their names. AIRCR is tried last, since it has BFHFNMINS."""
    rows = sorted(rows, key=lambda row: row.name == "AIRCR")
    return [line for bfhfnmins in (0, 1) for line in differing(program, rows, enabled, bfhfnmins)]
