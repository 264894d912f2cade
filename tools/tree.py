"""The tree: the crates that the program stands on, what a release says of their sources, and the program."""

import hashlib
import os
import subprocess
import sys

PROGRAM = "tz_main"
PARTS = ("src", "specs", "proofs")
TOP = os.path.dirname(os.path.dirname(os.path.abspath(__file__)))
RELEASED = os.path.join("release", "tzrun-x86_64-linux")
SUMS = os.path.join("release", "sums")


def lines_of_crates(top):
    """The lines of crates.txt by the names of the crates."""
    with open(os.path.join(top, "crates.txt"), encoding="utf-8") as lines:
        told = [line.rstrip("\n") for line in lines]
    return {line.split(":")[0]: line for line in told if ":" in line.split("#")[0]}


def crates_below(top, program=PROGRAM):
    """The lines of crates.txt of the crates that a program stands on, and of itself, in the order of the file."""
    lines = lines_of_crates(top)
    left, found = [program], set()
    while left:
        name = left.pop()
        if name in lines and name not in found:
            found.add(name)
            left += lines[name].split(":")[1].split()
    return [line for name, line in lines.items() if name in found]


def sum_of(path):
    with open(path, "rb") as file:
        return hashlib.sha256(file.read()).hexdigest()


def sources(top, name):
    """The paths of the files of a crate's parts, from the top."""
    for part in PARTS:
        for at, _, names in os.walk(os.path.join(top, "crates", name, part)):
            for file in names:
                yield os.path.relpath(os.path.join(at, file), top)


def told_of_sources(top):
    """What release/sums says of the sources: the lines of the crates, and a sum for each file."""
    crates = crates_below(top)
    files = sorted(path for line in crates for path in sources(top, line.split(":")[0]))
    return ["crate " + line for line in crates] + [f"{sum_of(os.path.join(top, path))}  {path}" for path in files]


def program_of_tree():
    """The path of the program that ./tzrun runs, which is built first where it isn't there. Where it can't be built the script ends."""
    run = subprocess.run([os.path.join(TOP, "tools", "program")], stdout=subprocess.PIPE, check=False)
    if run.returncode != 0:
        sys.exit("there is no program to try")
    return os.fsdecode(run.stdout[:-1])
