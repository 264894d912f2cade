"""What is found in a run of the program: the answers that cases have, as text."""

import collections
import re
import struct

from case_rows import hexadecimal

DIS_LINE = re.compile(r"([0-9a-f]{8}) ([0-9a-f]{2}|[0-9a-f]{4}|[0-9a-f]{8}) (\S.*)")
BYTES_LINE = re.compile(r"([0-9a-f]{8}) ((?:[0-9a-f]{2})+)")

# What a run of the program gives.
Run = collections.namedtuple("Run", "status out err")


def anything(run):
    """What a run gives that isn't what any case wants."""
    return f"status {run.status}, output {run.out!r}, standard error {run.err!r}"


def refusal(run):
    """The refusal of the file, or all that the run gives."""
    told = re.fullmatch(rb"file: ([A-Z][0-9][ -~]*)\n", run.err)
    return told.group(1).decode() if told and run.status == 5 and not run.out else anything(run)


def accepted(run):
    return "accepted" if run == Run(0, b"", b"") else refusal(run)


def lines(run):
    """The lines of an output."""
    if run.status or run.err or run.out and not run.out.endswith(b"\n"):
        return refusal(run)
    return "; ".join(run.out.decode().split("\n")[:-1]) or "no bytes"


def length(run):
    return refusal(run) if run.status or run.err else f"{len(run.out)} bytes"


def digits(run):
    return refusal(run) if run.status or run.err else run.out.hex()


def last_segment(run):
    """The last segment of an ELF file, and how many there are."""
    if run.status or run.err:
        return refusal(run)
    (number,) = struct.unpack_from("<H", run.out, 44)
    if not number:
        return "no segment"
    _, _, _, base, size = struct.unpack_from("<5I", run.out, 52 + 32 * (number - 1))
    return f"{base:08x} {size} {number}"


def swapped(code):
    """The digits of a code as those of its bytes, or back."""
    return "".join(code[at + 2 : at + 4] + code[at : at + 2] for at in range(0, len(code), 4))


def runs_of(pieces):
    """Bytes at addresses as maximal runs, each piece an address and digits."""
    memory = {}
    for base, digits_there in pieces:
        memory.update((base + at, it) for at, it in enumerate(hexadecimal(digits_there)))
    told = []
    for at in sorted(memory):
        if at - 1 not in memory:
            told.append(f"{at:08x} ")
        told[-1] += f"{memory[at]:02x}"
    return "; ".join(told) or "no bytes"


def image_bytes(run):
    """The bytes of an image, which `dis` wrote as text."""
    told = [DIS_LINE.fullmatch(line) for line in lines(run).split("; ")]
    if None in told:
        return lines(run)
    return runs_of((int(it.group(1), 16), swapped(it.group(2))) for it in told)


def same_bytes(segments):
    """Segments as maximal runs; another answer as it is."""
    told = [BYTES_LINE.fullmatch(it) for it in segments.split("; ")]
    return segments if None in told else runs_of((int(it.group(1), 16), it.group(2)) for it in told)


def answer(run):
    """What a run writes, on standard output or on standard error."""
    return run.status, run.out, run.err
