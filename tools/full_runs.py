"""The runs of which view `full` is checked, and how one is gone through."""

import collections
import os
import pathlib
import random

from case_rows import decimal, lists_of, unescaped, words_of
from full_lines import INDENT
from full_machine import Core, Memory, demo_or_file
from full_steps import Run
from full_system import System

TOP = pathlib.Path(__file__).resolve().parent.parent
MOST_STEPS, LIMIT = 20_000, 9_999_999
# Of a run with events of its own: steps behind the last one of the run, and how many at most.
MORE_STEPS, MOST_WITH_EVENTS = 300, 3_000


class Command(collections.namedtuple("Command", "folder board images script steps")):
    """A run by its files."""

    def words(self, steps):
        return ["run", self.board, *self.images, self.script, str(steps)]


def command_of(folder, words):
    """The runs that a command makes: those of both images where it compares two."""
    words = [it for it in words if it not in ("--view", "all", "ns", "full")]
    first, rest = words[:1], words[1:]
    if first == ["back"]:
        first, rest = ["run"], rest[:-1]
    if first in (["run"], ["gates"]) and len(rest) == 5:
        images, rest = [rest[1:3]], rest[:1] + rest[3:]
    elif first in (["pair"], ["explain"]) and len(rest) == 6:
        images, rest = [[rest[1], rest[3]], [rest[2], rest[3]]], rest[:1] + rest[4:]
    else:
        return
    if rest[2].isdigit():
        steps = min(int(rest[2]), MOST_STEPS, LIMIT)
        for pair in images:
            yield Command(folder, rest[0], tuple(pair), rest[1], steps)


def commands_of_folders():
    for path in sorted(TOP.glob("examples/*/commands")) + sorted(TOP.glob("lessons/*/commands")):
        for line in path.read_text(encoding="utf-8").splitlines():
            name, *words = line.split() or [""]
            status = path.with_name(f"{name}.status")
            if not status.is_file() or status.read_text(encoding="ascii").strip() == "1":
                yield from command_of(path.parent, words)


def commands_of_cases(folder, name):
    """The runs of a file of cases, whose files are put into a folder."""
    folder.mkdir()
    lists = lists_of(TOP / "cases" / name)
    for row in lists.get("repeated events", ()):
        script, event, step, last = row.columns
        events = (f"{it} {event}\n" for it in range(int(step), int(last) + 1, int(step)))
        (folder / script).write_text("".join(events), encoding="ascii")
    for row in lists["files"]:
        for file in words_of(row.columns[0]):
            (folder / os.fsdecode(file)).write_bytes(unescaped(row.columns[1]) * decimal(row.columns[2]))
    steps = [rows[0].columns[0] for name, rows in lists.items() if name.startswith("step ")]
    for words in steps + [row.columns[1] for row in lists.get("answers", ()) if row.columns[0] in ("0", "1")]:
        yield from command_of(folder, [os.fsdecode(it) for it in words_of(words)][1:])


def all_runs(folder):
    """One run of those that differ in their steps alone."""
    found = {}
    runs = [*commands_of_folders()]
    for name in ("runs.txt", "pairs.txt", "mover.txt", *sorted(path.name for path in (TOP / "cases").glob("full*.txt"))):
        runs += commands_of_cases(folder / name, name)
    for run in runs:
        found[run[:-1]] = max(run.steps, found.get(run[:-1], 0))
    return [Command(*key, steps) for key, steps in found.items() if steps]


def with_events(run, folder, seed):
    """A run with events of its own in place of its script: interrupts and NMI in a row of steps, by a seed."""
    chosen = random.Random(f"{seed} {run.words(run.steps)}")
    count = demo_or_file(run.folder, run.board).interrupts
    steps = min(run.steps + MORE_STEPS, MOST_WITH_EVENTS)
    lines = []
    for step in range(chosen.randrange(1, 10), steps, chosen.choice((3, 7, 11, 23, 40))):
        for _ in range(chosen.choice((1, 1, 2))):
            is_interrupt = count and chosen.random() > 0.15
            lines.append(f"{step} irq {chosen.randrange(count)}\n" if is_interrupt else f"{step} nmi\n")
    path = folder / f"{seed}.{len(list(folder.iterdir()))}.txt"
    path.write_text("".join(lines), encoding="ascii")
    return run._replace(script=str(path), steps=steps)


def events_of(text):
    """The events of a script by their steps."""
    events = collections.defaultdict(list)
    for line in text.splitlines():
        step, _, event = line.strip(" ").partition(" ")
        if step.isdigit():
            words = event.split()
            events[int(step)].append("nmi" if words == ["nmi"] else f"irq {int(words[1])}")
    return events


def begun(run):
    """The core, the system registers and the events with which a run begins."""
    board = demo_or_file(run.folder, run.board)
    core = Core(Memory(board, [(run.folder / name).read_bytes() for name in run.images]))
    script = "" if run.script == "@none" else (run.folder / run.script).read_text(encoding="ascii")
    return core, System(core), events_of(script)


def grouped(text):
    """The lines of a trace, each with those below it."""
    groups = []
    for line in text.splitlines():
        if not line.startswith(INDENT):
            groups.append((line, []))
        elif groups:
            groups[-1][1].append(line)
        else:
            groups.append((line, []))
    return groups


def check(run, every, seen, text, verdict):
    """Goes through a run: its lines of view `all` and of `ns`, with one step more than `full` has, and `full` itself."""
    groups = grouped(text)
    if [line for line, _ in groups] != every[:run.steps] or not text.endswith("\n"):
        verdict.tell(None, "without the indented lines it isn't view `all`")
        return
    core, system, events = begun(run)
    machine = Run(core, system, events, lambda step: seen[step - first].endswith(" S"), verdict)
    first = int(every[0].split(" ")[0])
    for at, (line, lines) in enumerate(groups):
        machine.take(line, every[at + 1] if at + 1 < len(every) else None, lines)
        if len(verdict.disagreements) > 40:
            break
