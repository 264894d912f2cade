"""What `tzrun sweep` tells at the end: at which arrivals the images differ, in what, and how the first is run again."""

import collections
import contextlib
import itertools
import pathlib
import re
import shlex
import subprocess
import textwrap

from sweep_rows import AGREE, with_arrival

# The number of the exception that interrupt 0 is.
FIRST_IRQ = 16
# A line at which a fault is taken, or the core locks.
FAULT = re.compile(rb"\d+ [sn] (X [3-7] .*|L)\n")
# What becomes of the interrupt in a run.
TAKEN, FAULTED, UNTAKEN = "taken", "faulted", "untaken"
# Behind what differs at an earlier step than without the interrupt.
SOONER = ", sooner than without the interrupt"

LONGEST_LINE = 78
MOST_LINES_OF_RANGES = 8


def named(*names):
    """Words that have a place, behind `--` where one would be taken for an option."""
    words = list(map(str, names))
    return ["--", *words] if any(word.startswith("-") for word in words) else words


def command(*words):
    """A command line to be typed."""
    return " ".join(shlex.quote(str(word)) for word in ("tzrun", *words))


def counted(steps):
    return f"{len(steps):,} arrival step{'s' if len(steps) != 1 else ''}"


def ranges(steps, chosen):
    """Those of the steps that are chosen, as ranges."""
    found = []
    for place, step in enumerate(steps):
        if step not in chosen:
            continue
        if found and found[-1][1] == place - 1:
            found[-1][1] = place
        else:
            found.append([place, place])
    return [f"{steps[a]} to {steps[b]}" if a != b else str(steps[a]) for a, b in found]


def listed(texts, name):
    """Texts in lines; where there are too many of them, with how many more the file of this name has."""
    lines, line = [], ""
    for number, text in enumerate(texts):
        longer = f"{line}, {text}" if line else text
        if len(longer) < LONGEST_LINE - 2:
            line = longer
            continue
        lines.append(f"{line},")
        if len(lines) == MOST_LINES_OF_RANGES:
            return [*lines, f"and {len(texts) - number:,} more places, which {name} has"]
        line = text
    return [*lines, line]


def place_of(answers):
    """Where the runs of a class differ, as seen from the arrival."""
    behind = {answer.k - step for step, answer in answers.items()}
    places = sorted({answer.k for answer in answers.values()})
    if behind == {0}:
        return "at the step of arrival"
    if len(places) == 1:
        return f"at step {places[0]}"
    if len(behind) == 1 and min(behind) > 0:
        return f"{min(behind)} steps behind the arrival"
    return f"at {len(places):,} steps from {places[0]} to {places[-1]}"


class Summary:
    """What is told at the end."""

    def __init__(self, path, placed, options, plain, table, script):
        self.path, self.placed, self.options, self.plain, self.script = path, placed, options, plain, script
        self.looked_at = []
        self.steps = range(options["--from"], options["--to"] + 1, options["--every"])
        self.answers = {step: table.answers[step] for step in self.steps}
        self.classes = {}
        for step, answer in self.answers.items():
            if answer != AGREE:
                is_sooner = plain != AGREE and answer.k < plain.k
                self.classes.setdefault(answer.what + SOONER * is_sooner, {})[step] = answer

    def lines(self):
        every = f", {self.options['--every']} apart" if self.options["--every"] > 1 else ""
        differ = sum(map(len, self.classes.values()))
        yield f"{counted(self.steps)} of interrupt {self.options['--irq']}: {self.steps[0]} to {self.steps[-1]}{every};" \
              f" {self.options['--steps']:,} steps each"
        yield f"{len(self.steps) - differ:,} agree, {differ:,} differ"
        if self.plain == AGREE:
            yield "without the interrupt they agree"
        else:
            same = sum(answer == self.plain for answer in self.answers.values())
            yield f"without the interrupt they differ at step {self.plain.k}, in {self.plain.what};" \
                  f" so do {same:,} of these"
        yield from self.told_of_faulted()
        yield from self.told_of_untaken()
        yield from self.told_of_agreeing()
        for what, answers in sorted(self.classes.items(), key=lambda it: (-len(it[1]), it[0])):
            yield ""
            yield f"{what}: {counted(answers)}; the runs differ {place_of(answers)}"
            yield from (f"  {line}" for line in listed(ranges(self.steps, answers), self.options["--out"]))
            yield from (f"  {line}" for line in self.replayed(min(answers)))
        yield ""
        yield f"the map: {command('picture', '--sweep', self.options['--out'])} > page.html"

    def look_whether_taken(self, folder):
        """Where no answer shows that the interrupt has an effect, looks at some runs of the first image for it."""
        if any(answer != self.plain for answer in self.answers.values()):
            return
        for step in sorted({self.steps[0], self.steps[len(self.steps) // 2], self.steps[-1]}):
            path = folder / "looked"
            path.write_bytes(with_arrival(self.script, step, self.options["--irq"]))
            self.looked_at.append((step, self.outcome_of(path, step)))

    def outcome_of(self, path, step):
        """What becomes of the interrupt in the first image's run with this script, at the step or behind it.

        A fault comes in its place where the first line that the run without it hasn't is one of a fault.
        """
        wanted, steps, first = [b"X", b"%d" % (FIRST_IRQ + self.options["--irq"])], self.options["--steps"], None
        with self.lines_with(path, steps) as lines, self.lines_with(self.options["--script"], steps) as plain:
            both = itertools.zip_longest(lines, plain, fillvalue=b"")
            for line, other in itertools.islice(both, step, None):
                if line.split(b" ", 4)[2:4] == wanted:
                    return TAKEN
                first = first or (line if line != other else None)
        return FAULTED if first and FAULT.fullmatch(first) else UNTAKEN

    @contextlib.contextmanager
    def lines_with(self, script, steps):
        """The lines of the first image's run with a script."""
        board, secure, _, nonsecure = self.placed
        words = ["run", "--view", "all", *named(board, secure, nonsecure, script, steps)]
        with subprocess.Popen(["tzrun", *words], executable=self.path, stdout=subprocess.PIPE) as run:
            try:
                yield run.stdout
            finally:
                run.terminate()

    def looked_at_with(self, outcome):
        """The arrivals that were looked at with this outcome, and what tells of how many they are."""
        steps = [step for step, other in self.looked_at if other == outcome]
        arrivals = ", ".join(map(str, steps))
        told = f"in {len(steps)} of the {len(self.looked_at)} runs of the first image that were looked at"
        return steps, f"{told} (arrivals {arrivals})"

    def told_of_faulted(self):
        steps, runs = self.looked_at_with(FAULTED)
        if steps:
            yield ""
            yield from textwrap.wrap(
                f"a fault comes in place of the interrupt {runs}, as where its entry finds no room on the stack. What "
                "agrees there is the fault and its handler, so an agreement says little. The first with its cause:",
                LONGEST_LINE,
            )
            board, secure, _, nonsecure = self.placed
            words = named(board, secure, nonsecure, self.script_of(steps[0]), self.options["--steps"])
            yield f"  {command('run', '--view', 'full', *words)}"

    def told_of_untaken(self):
        steps, runs = self.looked_at_with(UNTAKEN)
        if steps:
            yield ""
            yield from textwrap.wrap(
                f"the interrupt isn't taken {runs}, and an agreement there says little. For one that is Non-secure, "
                "Secure code sets its bit in NVIC_ITNS, and Non-secure code that in NVIC_ISER; for one that is Secure, "
                "Secure code sets its bit in NVIC_ISER. A mask may hold it off, too",
                LONGEST_LINE,
            )

    def told_of_agreeing(self):
        """The arrivals at which the images agree, where without the interrupt they differ."""
        agreeing = {step for step, answer in self.answers.items() if answer == AGREE}
        if agreeing and self.plain != AGREE:
            yield ""
            yield f"agree: {counted(agreeing)}; what differs without the interrupt doesn't there"
            yield from (f"  {line}" for line in listed(ranges(self.steps, agreeing), self.options["--out"]))
            yield from (f"  {line}" for line in self.replayed(min(agreeing)))

    def script_of(self, step):
        """Writes the script of an arrival beside the rows, and gives its name."""
        path = pathlib.Path(self.options["--out"]).with_suffix("")
        path = path.with_name(f"{path.name}-{step}.txt")
        path.write_bytes(with_arrival(self.script, step, self.options["--irq"]))
        return path

    def replayed(self, step):
        """The first arrival of a class, with the commands that run it again; the script of it is written."""
        words = named(*self.placed, self.script_of(step), self.options["--steps"])
        yield f"the first: {step}. Without the interrupt this step of the first image is"
        yield f"  {self.line_at(step)}"
        yield "with it:"
        yield f"  {command('pair', *words)}"
        yield f"  {command('explain', *words)}"

    def line_at(self, step):
        """The line of the first image's run at a step, if no interrupt comes, without its number."""
        with self.lines_with(self.options["--script"], step + 1) as lines:
            last = collections.deque(lines, 1)
        return last[0].decode("ascii").partition(" ")[2].rstrip("\n") if last else ""
