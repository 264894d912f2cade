"""Reads the traces of two runs beside each other, in view `all`, and keeps of them what tools/explain tells.

A line is bytes, as `tzrun run` writes it. Of the lines no more is kept than what may be told: the runs may be long.
"""

import collections
import contextlib
import itertools
import pathlib
import re
import subprocess

from differences import WRITERS

ROOT = pathlib.Path(__file__).resolve().parent.parent
# Installed, this stands below the prefix.
FRONT_DOOR = ROOT / "tzrun" if (ROOT / "crates.txt").is_file() else ROOT.parent.parent / "bin" / "tzrun"

# The status where there is no program that answers.
NO_PROGRAM = 70
# Lines that are shown before and after a step.
BEFORE, AFTER = 3, 2
# Lines that are told at most of a run, and bytes of stores that are kept of it.
MOST_TOLD, MOST_KEPT = 6, 200_000

SECURE, NONSECURE = b"s", b"n"
EXC_RETURN = 0xFF
FAULTS = (b"3", b"4", b"5", b"6", b"7")
# Which lines of the view full say why an exception is taken.
CAUSES = (
    b"    fault ",
    b"    HardFault ",
    b"    refused: ",
    b"    interrupted ",
    b"    frame not written: ",
    b"    additional frame not written: ",
    b"    vector of ",
)
# An IT instruction, with its conditions; and of an instruction its place, its code and its mnemonic.
CONDITIONS = re.compile(rb"i(t[te]{0,3})")
INSTRUCTION = re.compile(rb"\d+ [sn] N ([0-9a-f]{8}) ([0-9a-f]+) (\S+)")
REGISTER = re.compile(rb" (r\d+|lr|apsr)=([0-9a-f]{8})")
STORE = re.compile(rb" (\[([0-9a-f]{8})\]\.([124])=([0-9a-f]{8}))")
BRANCH = re.compile(rb" (blxns|bxns) (r\d+|lr)\b")
STACK_POINTER = re.compile(rb" sp=([0-9a-f]{8})")

# A line that may have written what is looked for, the registers as they were known behind it, and whether the IT block
# in which it stands may have skipped it.
Written = collections.namedtuple("Written", "line known may_be_skipped")


# A call that came in by one line, with a Non-secure stack pointer, and where it went back with another one, the line and
# that one.
Swapped = collections.namedtuple("Swapped", "entry came back went")


class Ended(Exception):
    """A command that ended as it hasn't to, with the status that comes of it."""

    def __init__(self, returncode):
        super().__init__()
        self.status = returncode if returncode >= 0 else 128 - returncode


@contextlib.contextmanager
def traces(*wanted):
    """The lines of runs, each of the images, the script, the count of steps and the view that are wanted."""
    runs = []
    try:
        for board, secure, nonsecure, script, steps, view in wanted:
            words = ["run", "--view", view, "--", board, secure, nonsecure, script, str(steps)]
            runs.append(subprocess.Popen([FRONT_DOOR, *words], stdin=subprocess.DEVNULL, stdout=subprocess.PIPE))
        yield [run.stdout for run in runs], runs
    finally:
        for run in runs:
            run.stdout.close()
            run.terminate()
            run.wait()


def steps_of(streams, runs, count):
    """The lines of each step; where there are fewer than wanted, a run was refused."""
    passed = 0
    for passed, lines in enumerate(zip(*streams), 1):
        yield passed - 1, lines
    if passed < count:
        statuses = [run.wait() for run in runs if not run.stdout.read(1)]
        raise Ended(max(statuses, key=abs, default=0) or NO_PROGRAM)


def side_of(line):
    return line.split(b" ", 2)[1]


def kind_of_line(line):
    """`N`, `X`, `Z` or `L`."""
    return line.split(b" ", 3)[2].strip()


def is_gate(line):
    """Whether SG ran."""
    return line.split()[5:6] == [b"sg"]


def is_fault(line):
    """Whether an exception is taken that is a fault: 3 to 7."""
    return b" X " in line and kind_of_line(line) == b"X" and line.split()[3] in FAULTS


def causes_below(line, board, secure, nonsecure, script):
    """Why the exception of a line of a run is taken: what the view full has below the line, without what it leaves."""
    step = int(line.split()[0])
    with traces((board, secure, nonsecure, script, step + 1, "full")) as (streams, _):
        below = itertools.dropwhile(lambda its: its != line, streams[0])
        next(below, None)
        return [its for its in itertools.takewhile(lambda its: its[:1] == b" ", below) if its.startswith(CAUSES)]


def place_of(line):
    """Where a run is: the letter, and of an instruction its place, of an exception its number."""
    return line.split(b" ", 4)[2:4]


def are_of_other_code(lines):
    """Whether two lines are of one place of Secure code, and show that the images have other instructions there."""
    words = [line.split(b" ", 5) for line in lines]
    both = [it[1:4] for it in words]
    return both[0] == both[1] and both[0][:2] == [SECURE, b"N"] and words[0][4] != words[1][4]


def kind_of(line, values):
    """In which way a step that ends Non-secure goes there; `values` has registers as they are known."""
    if side_of(line) != SECURE:
        return "refused"
    if kind_of_line(line) == b"X":
        return "preempt" if int(line.split()[4], 16) & 0x40 else "chain"
    branch = BRANCH.search(line)
    if not branch:
        return "excreturn"
    if branch[1] == b"blxns":
        return "call"
    target = values.get(branch[2])
    return "return" if target is not None and target >> 24 != EXC_RETURN else "bxns"


class Run:
    """What is kept of a run: what Secure code did since both runs were last in Non-secure code."""

    def __init__(self, what):
        self.writer = re.compile(WRITERS[what].encode()) if what in WRITERS else None
        self.keeps_bytes = what == "bytes"
        # LR and R0 as Non-secure code left them, and its last line; by register, the last line of Secure code that
        # changed it.
        self.lr, self.r0, self.outside, self.secure = None, None, None, {}
        # By the place of an instruction that an IT block has next, how many of its instructions are left from there on.
        self.blocks, self.values = {}, {}
        self.forget()

    def forget(self):
        self.r0 = self.answer()
        self.values, self.changed, self.stored = {}, {}, {}
        self.wrote, self.writes, self.is_full = [], 0, False

    def note_outside(self, line):
        """Of Non-secure code LR and R0 are kept, which a call brings along, and the line, which may go to Secure code."""
        self.outside = line
        is_entry = kind_of_line(line) == b"X"
        if is_entry or b" lr=" in line:
            self.lr = lr_of(line)
        if is_entry or b" r0=" in line:
            self.r0 = r0_of(line)

    def note(self, line):
        """Keeps what a step of Secure code changed."""
        if self.outside:
            self.note_registers(self.outside)
            self.outside = None
        for name in self.note_registers(line):
            self.secure[name] = line
        if self.writer:
            self.note_written(line)
        if self.keeps_bytes:
            self.note_stores(line)

    def note_written(self, line):
        """Keeps a line that may have written what is looked for. One that shows a change wasn't skipped."""
        is_in_block = self.is_in_block(line)
        if self.writer.search(line):
            may_be_skipped = is_in_block and not REGISTER.search(line) and not STORE.search(line)
            self.writes += 1
            self.wrote = [*self.wrote, Written(line, self.known(), may_be_skipped)][-MOST_TOLD:]

    def is_in_block(self, line):
        """Whether an instruction stands in an IT block, as the lines before it say. An interrupt may come between."""
        found = INSTRUCTION.match(line)
        if not found:
            return False
        place, conditions = int(found[1], 16), CONDITIONS.fullmatch(found[3])
        left = self.blocks.pop(place, 0)
        more = len(conditions[1]) if conditions else left - 1
        if more > 0:
            self.blocks[place + len(found[2]) // 2] = more
        return left > 0

    def note_registers(self, line):
        """The names of the registers that a line says are changed. An entry may clear some, and no line says which."""
        found = REGISTER.findall(line)
        for name, value in found:
            self.values[name] = int(value, 16)
            self.changed[name] = line
        if kind_of_line(line) == b"X":
            self.values, self.changed[b"lr"], self.r0 = {b"lr": lr_of(line)}, line, None
            return [b"lr"]
        return [name for name, _ in found]

    def note_stores(self, line):
        for store, place, size, value in STORE.findall(line):
            for at in range(int(size)):
                if len(self.stored) == MOST_KEPT:
                    self.is_full = True
                    return
                self.stored[int(place, 16) + at] = int(value, 16) >> 8 * at & 0xFF, line, store

    def known(self):
        """The registers that are known."""
        return {b"lr": self.lr, **self.values}

    def answer(self):
        """R0, where it is known. Secure code that gives the word which its caller had there has no line of it."""
        return self.values.get(b"r0", self.r0)


def lr_of(line):
    found = re.search(rb" lr=([0-9a-f]{8})", line)
    return int(found[1] if found else line.split()[4], 16)


def r0_of(line):
    found = re.search(rb" r0=([0-9a-f]{8})", line)
    return int(found[1], 16) if found else None


class Calls:
    """Which calls of Secure code are open in a run, and the first that went back to another stack than it came from."""

    def __init__(self):
        # The stack pointer of each side, as far as it is known; by the Secure one behind SG, the line of a call, the
        # Non-secure one then, and how often Secure code had been preempted.
        self.pointers, self.open, self.preempts = {}, {}, 0
        self.last = self.swapped = None

    def note(self, line):
        """Takes the next line. A stack pointer in the one before it is of the side that goes on here."""
        last, self.last = self.last, line
        if last is None:
            return
        found, side = STACK_POINTER.search(last), side_of(line)
        if kind_of_line(last) == b"X":
            self.preempts += side_of(last) == SECURE != side
            self.pointers.pop(side, None)
        elif found and side != side_of(last):
            self.note_change(last, found[1])
        if found:
            self.pointers[side] = found[1]

    def note_change(self, last, pointer):
        """Takes a line by which the other side goes on, with this stack pointer."""
        if is_gate(last):
            self.open[pointer] = last, self.pointers.get(NONSECURE), self.preempts
        elif b" bxns " in last and not self.swapped:
            entry, came, preempts = self.open.pop(self.pointers.get(SECURE), (None, None, 0))
            if came not in (None, pointer) and preempts < self.preempts:
                self.swapped = Swapped(entry, came, last, pointer)


class Difference:
    """The two runs up to the step at which they differ, and a few steps on."""

    def __init__(self, step, what):
        self.step, self.what = step, what
        self.runs = [Run(what), Run(what)]
        self.recent = collections.deque(maxlen=BEFORE + 1)
        # Which runs are in Secure code after the step; none where no line behind it can be had.
        self.stays = self.at_step = self.last = None
        self.ends, self.locks = {}, {}
        # The first step, of all, at which both are at one place of Secure code, and it has two codes; and the answers.
        self.other_code, self.answers = None, {}
        self.calls = Calls()
        self.begin_episode(None)

    def begin_episode(self, after):
        """Begins anew behind a crossing of both runs."""
        self.after, self.entered, self.first, self.parted = after, None, None, None
        self.shown, self.show_until = {}, -1
        for run in self.runs:
            run.forget()

    def show_around(self, step):
        self.shown.update(self.recent)
        self.show_until = step + AFTER

    def read(self, steps):
        """Reads both runs; ends where all is known that is told."""
        was_secure = True
        for step, lines in steps:
            is_secure = [side_of(line) == SECURE for line in lines]
            if step <= self.step + 1:
                self.calls.note(lines[0])
            if step == self.step + 1:
                self.stays = is_secure
            if step <= self.step:
                if was_secure and not any(is_secure):
                    self.begin_episode(step - 1 if step else None)
                was_secure = all(is_secure)
                self.take(step, lines, is_secure)
            elif self.look_on(step, lines, is_secure):
                return

    def take(self, step, lines, is_secure):
        self.recent.append((step, lines))
        self.note_locks(step, lines)
        for run, line, secure in zip(self.runs, lines, is_secure):
            run.note(line) if secure else run.note_outside(line)
        if self.entered is None and any(is_secure):
            self.entered = step
        if lines[0] != lines[1]:
            if self.other_code is None and are_of_other_code(lines):
                self.other_code = lines
            if self.first is None:
                self.first = step
                self.show_around(step)
            if self.parted is None and place_of(lines[0]) != place_of(lines[1]):
                self.parted = step
                self.show_around(step)
        if step == self.step:
            self.note_answers(lines)
            self.at_step = lines
            self.show_around(step)
        if step <= self.show_until:
            self.shown[step] = lines

    def note_answers(self, lines):
        """Keeps R0 of a run that returns, where it is known. Of one that was out before nothing is kept."""
        for number, (run, line) in enumerate(zip(self.runs, lines)):
            if number not in self.ends and side_of(line) == SECURE and kind_of(line, run.known()) in ("return", "bxns"):
                self.answers[number] = run.answer()

    def note_locks(self, step, lines):
        for number, line in enumerate(lines):
            if kind_of_line(line) == b"L":
                self.locks.setdefault(number, step)

    def look_on(self, step, lines, is_secure):
        """Whether all is known, this step behind the difference."""
        self.last = step
        if step <= self.show_until:
            self.shown[step] = lines
        self.note_locks(step, lines)
        for number, secure in enumerate(is_secure):
            if not secure:
                self.ends.setdefault(number, step - 1)
            elif number not in self.ends:
                self.runs[number].note_registers(lines[number])
        self.note_answers(lines)
        is_over = len(self.ends) + len(set(self.locks) - set(self.ends)) == 2
        return step >= self.show_until and (is_over or not self.what.startswith("alone"))


class Agreement:
    """What is counted of two runs that agree."""

    def __init__(self):
        self.run, self.calls = Run(""), Calls()
        self.kinds = collections.Counter()
        self.secure = self.differing = self.locked = 0
        # Of the steps that differ, those behind the first of Non-secure code.
        self.differing_later, self.is_begun = 0, False
        self.first = None
        # The first fault of each run, the last one, and how many there are.
        self.faults, self.last_faults, self.fault_counts = [None, None], [None, None], [0, 0]

    def read(self, steps, count):
        """Reads the steps, each with the line of both runs in view all and of the first in view ns."""
        was_secure, last = False, b""
        for step, (line, other, seen) in steps:
            is_secure = side_of(line) == SECURE
            self.calls.note(line)
            if not is_secure and step:
                if was_secure:
                    self.kinds[kind_of(last, self.run.known())] += 1
                    self.run.forget()
                elif was_hidden:
                    self.kinds["refused"] += 1
            if step == count:
                return
            was_secure, last, was_hidden = is_secure, line, seen.endswith(b" S\n")
            for run, its in enumerate((line, other)):
                if is_fault(its):
                    self.note_fault(run, its)
            if is_secure:
                self.secure += 1
                self.run.note(line)
                self.locked += kind_of_line(line) == b"L"
            else:
                self.run.note_outside(line)
                self.is_begun = True
            if line != other:
                self.differing += 1
                self.differing_later += self.is_begun
                self.first = self.first or (line, other)

    def note_fault(self, run, line):
        """Keeps the first fault of a run, counts all, and keeps the last."""
        self.faults[run] = self.faults[run] or line
        self.last_faults[run] = line
        self.fault_counts[run] += 1
