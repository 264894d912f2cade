"""The cases of a file, as jobs: runs of the program, and what each has to give."""

import collections
from functools import partial
import os

from case_answers import answer
from case_rows import decimal, text, unescaped, Unreadable, words_of

# The file of a case, whose name stands before a refusal, and one without anything in it.
FILE = "file"
NONE = "none"

# Something that a run has to give: the place of the row, the answer, and the function that finds it in a run.
Check = collections.namedtuple("Check", "place wanted found")
# Files, the words of a run among them, and what it has to give.
Job = collections.namedtuple("Job", "files words checks")


class Cases:
    """Cases as they are read, and the rows that can't be."""

    def __init__(self):
        self.jobs = []
        self.unreadable = []  # Each with the reason.

    def each(self, rows, readers, make):
        """Reads the columns of each row, and adds the jobs that `make` makes of the row's place and them."""
        if not rows:
            self.unreadable.append("a list without rows")
        for row in rows:
            try:
                if len(row.columns) != len(readers):
                    raise Unreadable("another number of columns")
                columns = [read(column) for read, column in zip(readers, row.columns)]
                self.jobs.extend(make(row.place, *columns))
            except (Unreadable, ValueError) as error:
                self.unreadable.append(f"{row.place}: {error}")

    def cuts(self, rows, data, make, answer=text):
        """A file cut at each length: a row has the answer, and from how many bytes on it is that."""
        starts = [decimal(row.columns[1]) for row in rows if len(row.columns) == 2]
        if len(starts) != len(rows):
            raise Unreadable("another number of columns")
        if not starts or starts[0] or starts != sorted(set(starts)) or starts[-1] > len(data):
            raise Unreadable("lengths that don't ascend from 0 to that of the file")
        for row, start, end in zip(rows, starts, starts[1:] + [len(data) + 1]):
            wanted = answer(row.columns[0])
            for count in range(start, end):
                self.jobs.extend(make(f"{row.place} ({count} bytes)", wanted, data[:count]))


def files(cases, lists, shelf):
    """Puts the files of the list on a shelf."""

    def keep(_, names, content, times):
        shelf.update((os.fsdecode(name), content * times) for name in names)
        return []

    cases.each(lists.pop("files"), [words_of, unescaped, decimal], keep)


def answered(shelf, place, status, line, told):
    """A run in a folder with the files of a shelf."""
    wanted = (status, b"", told) if status > 1 else (status, told, b"")
    return [Job(shelf, line, [Check(place, wanted, answer)])]


def answers(cases, lists, shelf):
    """Runs in a folder with the files of a shelf and those of the list."""
    files(cases, lists, shelf)
    cases.each(lists.pop("answers"), [decimal, words_of, unescaped], partial(answered, shelf))
