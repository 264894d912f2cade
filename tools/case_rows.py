"""Reads the files of the folder cases/: lists of rows, and what the columns of a row stand for.

The form of the files is told in check_cases.
"""

import collections
import re

ESCAPE = re.compile(rb"\\([nrtse\\]|x[0-9a-f]{2})")
ESCAPED = {b"n": b"\n", b"r": b"\r", b"t": b"\t", b"s": b" ", b"e": b"", b"\\": b"\\"}

# A line of a file of cases: where it stands, and its columns.
Row = collections.namedtuple("Row", "place columns")


class Unreadable(Exception):
    """A row, a list or a file that can't be read."""


def byte_of(escape):
    """What an escape stands for."""
    letter = escape.group(1)
    return ESCAPED[letter] if letter in ESCAPED else bytes([int(letter[1:], 16)])


def unescaped(column):
    """The bytes that a column stands for."""
    data = column.encode()
    if b"\\" in ESCAPE.sub(b"", data):
        raise Unreadable("an escape that is none")
    return ESCAPE.sub(byte_of, data)


def hexadecimal(column):
    return bytes.fromhex(column)


def decimal(column):
    if not column.isdigit():
        raise Unreadable("no number")
    return int(column)


def address(column):
    if not re.fullmatch("[0-9a-f]{8}", column):
        raise Unreadable("no address")
    return int(column, 16)


def side(column):
    if column not in ("s", "ns"):
        raise Unreadable("no side")
    return column


def words_of(column):
    return [unescaped(word) for word in column.split(" ")]


def halfword(column):
    if not re.fullmatch("[0-9a-f]{4}", column):
        raise Unreadable("no halfword")
    return int(column, 16)


def halfwords(column):
    return [halfword(it) for it in column.split()]


def text(column):
    return column


def lists_of(path):
    """The lists of a file of cases by their names."""
    lists = {}
    rows = None
    for number, line in enumerate(path.read_text(encoding="utf-8").split("\n"), 1):
        line = line.strip(" ")
        name = re.fullmatch(r"\[(\w[\w ]*)\]", line)
        if name:
            if name.group(1) in lists:
                raise Unreadable(f"{path.name}:{number}: a list that stands twice")
            rows = lists[name.group(1)] = []
        elif line.startswith("["):
            raise Unreadable(f"{path.name}:{number}: no name of a list")
        elif line and not line.startswith("#"):
            if rows is None:
                raise Unreadable(f"{path.name}:{number}: a row of no list")
            rows.append(Row(f"{path.name}:{number}", [it.strip(" ") for it in line.split("|")]))
    return lists


def whole(rows):
    """The file whose pieces are the rows; each begins with `|`."""
    pieces = []
    for row in rows:
        if len(row.columns) != 2 or row.columns[0]:
            raise Unreadable(f"{row.place}: no piece of a file")
        pieces.append(unescaped(row.columns[1]))
    return b"".join(pieces)
