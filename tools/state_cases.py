"""The cases of cases/states.txt: states, as words with the memory that images fill, and runs that go on from them."""

import os
import struct

from case_answers import accepted, anything, length
from case_jobs import answered, Check, FILE, files, Job
from case_rows import address, decimal, hexadecimal, text, unescaped, Unreadable, whole, words_of

# What a board file has before its regions; and how many words of the mover stand before those of memory.
BOARDS = {"v8.0": b"", "v8.1": b'profile = "v8.1"\n', "mover": b"mover = true\n"}
MOVER_WORDS = {"v8.0": 0, "v8.1": 0, "mover": 8}
# What is found where a run writes a state, and so what is wanted.
WRITTEN = "the state"
# The number of regions among the words of a state; behind it stand four words of each.
REGIONS = 9


def words_of_rows(rows):
    """The words of rows; `x` and a number behind a word say how often it stands there."""
    if any(len(row.columns) != 2 or row.columns[0] for row in rows):
        raise Unreadable("no words of a state")
    pieces = [piece.partition("x") for row in rows for piece in row.columns[1].split()]
    return [address(word) for word, _, times in pieces for _ in range(decimal(times) if times else 1)]


def values_of(column):
    """Values of words by their numbers."""
    pairs = [piece.split("=") for piece in unescaped(column).decode().split()]
    return {decimal(number): int(value, 16) for number, value in pairs}


def changed(words, values):
    """Words of which some have other values."""
    if any(number >= len(words) for number in values):
        raise Unreadable("a word behind the last one")
    return [values.get(number, word) for number, word in enumerate(words)]


def memory_of(words, images):
    """The words of memory, of the regions that the words of a state name, with the bytes of plain images."""
    held = {}
    for line in images.decode().splitlines():
        at, digits = line.split()
        held.update(enumerate(hexadecimal(digits), int(at, 16)))
    places = range(REGIONS + 1, REGIONS + 1 + 4 * words[REGIONS], 4)
    regions = [range(words[at], words[at] + words[at + 1]) for at in places]
    memory = bytes(held.get(at, 0) for region in regions for at in region)
    return [word for word, in struct.iter_unpack("<I", memory)]


class States:
    """States by their names, each with the file of its board."""

    def __init__(self, board, words):
        before, first, behind = board.partition(b"[[region]]")
        self.boards = {name: before + line + first + behind for name, line in BOARDS.items()}
        self.words = words
        self.states = {}

    def add(self, name, board, images, values):
        """A state whose memory has the bytes of images, and which else has other values of words alone."""
        words = changed(self.words + [0] * MOVER_WORDS[board] + memory_of(self.words, images), values)
        self.states[name] = self.boards[board], words

    def files(self, name, values=None):
        """The board's file, and that of the state in which words have these values."""
        if name not in self.states:
            raise Unreadable("no state of this name")
        board, words = self.states[name]
        words = changed(words, values or {})
        return board, struct.pack(f"<{len(words)}I", *words)


def state_in(file):
    """What finds a state in a run, or where its words are others."""

    def found(run):
        if run.status or run.err or len(run.out) != len(file):
            return anything(run)
        pairs = zip(struct.iter_unpack("<I", run.out), struct.iter_unpack("<I", file))
        others = [f"{at}={one:x} for {other:x}" for at, ((one,), (other,)) in enumerate(pairs) if one != other]
        return " ".join(others) or WRITTEN

    return found


def page_in(run):
    """The first line of a page, and what stands behind its sections: memory."""
    if run.status or run.err:
        return anything(run)
    first, _, _ = run.out.partition(b"\n")
    at = run.out.find(b"\nMemory\n")
    return first.decode(), run.out[at:] if at >= 0 else b""


class StateJobs:
    """What is asked for the lines of cases/states.txt, of states by their names and over a shelf of files."""

    def __init__(self, given, shelf):
        self.given, self.shelf = given, shelf

    def state(self, _, name, board, images, values):
        self.given.add(name, board, b"".join(self.shelf[os.fsdecode(it)] for it in images), values)
        return []

    def snap(self, place, name, line):
        board, file = self.given.files(name)
        return [Job({**self.shelf, "board": board}, line, [Check(place, WRITTEN, state_in(file))])]

    def size(self, place, wanted, line):
        return [Job(self.shelf, line, [Check(place, wanted, length)])]

    def read(self, place, wanted, board, file):
        words = ["tzrun", "resume", "board", FILE, "@none", "0"]
        return Job({"board": board, FILE: file}, words, [Check(place, wanted, accepted)])

    def valued(self, place, wanted, name, number, values):
        words = values.split()
        return [self.read(f"{place} ({it})", wanted, *self.given.files(name, {number: int(it, 16)})) for it in words]

    def cut(self, place, wanted, name, values, count):
        board, file = self.given.files(name, values)
        return [self.read(place, wanted, board, file[: len(file) - max(count, 0)] + bytes(max(-count, 0)))]

    def cut_at(self, name):
        board, _ = self.given.files(name)
        return lambda place, wanted, data: [self.read(place, wanted, board, data)]

    def long(self, place, status, count, told):
        return answered({FILE: b"\n" * count}, place, status, ["tzrun", "resume", "@demo", FILE, "@none", "0"], told)

    def over_state(self, name, values):
        """The shelf, with a state and its board."""
        board, file = self.given.files(name, values)
        return {**self.shelf, "board": board, "state": file}

    def resumed(self, place, status, name, values, line, told):
        return answered(self.over_state(name, values), place, status, line, told)

    def shown(self, place, first, name, values, line, memory):
        return [Job(self.over_state(name, values), line, [Check(place, (first, memory), page_in)])]


def states(cases, lists):
    shelf = {}
    given = States(whole(lists.pop("board")), words_of_rows(lists.pop("words")))
    jobs = StateJobs(given, shelf)
    files(cases, lists, shelf)
    cases.each(lists.pop("states"), [text, text, words_of, values_of], jobs.state)
    cases.each(lists.pop("snaps"), [text, words_of], jobs.snap)
    cases.each(lists.pop("sizes"), [text, words_of], jobs.size)
    cases.each(lists.pop("values"), [text, text, decimal, text], jobs.valued)
    cases.each(lists.pop("changes"), [text, text, values_of, int], jobs.cut)
    cases.cuts(lists.pop("cuts"), given.files("T")[1], jobs.cut_at("T"))
    cases.each(lists.pop("long"), [decimal, decimal, unescaped], jobs.long)
    cases.each(lists.pop("resumes"), [decimal, text, values_of, words_of, unescaped], jobs.resumed)
    cases.each(lists.pop("pages"), [text, text, values_of, words_of, unescaped], jobs.shown)
