"""Reads the pages of help in share/help.

A page is share/help/NAME.txt. Its first line is `NAME - SUMMARY`. Behind it stand sections: a line of capitals at the
margin begins one, and its text is indented by two spaces. A line of SYNOPSIS is a form of the command, and lines that
are indented further go on with it; behind ` > ` stands where its output goes. The text of other sections is in blocks:

  code   what follows an empty line and is indented by four spaces or more; `$ ` begins a command, `\\` or `|` at the
         end of a line goes on with it, and the lines behind it are what it prints
  items  lines `TERM  TEXT`, with two spaces or more between; more of the text stands below it, indented further
  text   all else; what is typed stands between backticks

The page `tzrun` is the first one, whose section COMMANDS lists the commands. Each other page is that of a command.
"""

import collections
import pathlib
import re

TOP = pathlib.Path(__file__).resolve().parent.parent
FOLDER = TOP / "share" / "help"
FIRST = "tzrun"

LONGEST_LINE = 80

HEADING = re.compile(r"[A-Z][A-Z ]*")
ITEM = re.compile(r"  (\S+(?: \S+)*)  +(\S.*)")

# `sections` has the lines of each section by its heading.
Page = collections.namedtuple("Page", "name summary sections")
# What a block is, and its lines, or of items the pairs of a term and its text.
Block = collections.namedtuple("Block", "kind content")
# A command of an example, and the lines that it has to print.
Example = collections.namedtuple("Example", "command lines")


class Malformed(Exception):
    """A page that isn't in the form above."""


def page_of(path):
    """The page of a file."""
    first, *rest = path.read_text(encoding="ascii").splitlines()
    name, dash, summary = first.partition(" - ")
    if name != path.stem or not dash:
        raise Malformed(f"{path.name}: the first line isn't `{path.stem} - SUMMARY`")
    sections = {}
    lines = []
    for line in rest:
        if HEADING.fullmatch(line):
            lines = sections.setdefault(line, [])
        elif line and not line.startswith("  "):
            raise Malformed(f"{path.name}: neither a heading nor indented: {line}")
        else:
            lines.append(line)
    needed = "COMMANDS" if name == FIRST else "SYNOPSIS"
    if needed not in sections:
        raise Malformed(f"{path.name}: there is no section {needed}")
    return Page(name, summary, sections)


def first_page():
    return page_of(FOLDER / f"{FIRST}.txt")


def listed(page):
    """The commands that the first page lists, in its order."""
    return list(items_of(page, "COMMANDS"))


def command_pages():
    """The pages of commands: those that the first page lists in its order, and then all others."""
    order = listed(first_page())
    pages = [page_of(path) for path in sorted(FOLDER.glob("*.txt")) if path.stem != FIRST]
    return sorted(pages, key=lambda page: order.index(page.name) if page.name in order else len(order))


def parts(lines):
    """The lines between empty ones."""
    part = []
    for line in [*lines, ""]:
        if line:
            part.append(line)
        elif part:
            yield part
            part = []


def items(part):
    """The pairs of a term and its text, or none where these lines aren't items."""
    pairs = []
    for line in part:
        if found := ITEM.fullmatch(line):
            pairs.append(found.groups())
        elif pairs and line.startswith("   "):
            pairs[-1] = (pairs[-1][0], f"{pairs[-1][1]} {line.strip()}")
        else:
            return None
    return pairs


def blocks(lines):
    for part in parts(lines):
        if all(line.startswith("    ") for line in part):
            yield Block("code", [line[4:] for line in part])
        elif pairs := items(part):
            yield Block("items", pairs)
        else:
            yield Block("text", [line.strip() for line in part])


def items_of(page, heading):
    """The texts of all items of a section by their terms; none where there is no such section."""
    found = [block.content for block in blocks(page.sections.get(heading, [])) if block.kind == "items"]
    return dict(pair for pairs in found for pair in pairs)


def forms(page):
    """The forms of a command, each as one line."""
    found = []
    for line in page.sections["SYNOPSIS"]:
        if line.startswith("   "):
            found[-1] += f" {line.strip()}"
        elif line:
            found.append(line.strip())
    return found


def words_of(form):
    """A form without where the output goes, which the shell does."""
    return form.partition(" > ")[0]


def examples_in(lines):
    """The commands among lines of code, with the lines behind each."""
    found = []
    for line in lines:
        if line.startswith("$ "):
            found.append(Example(line[2:], []))
        elif found and not found[-1].lines and found[-1].command.endswith(("\\", "|")):
            found[-1] = Example(f"{found[-1].command}\n{line}", [])
        elif found:
            found[-1].lines.append(line)
    return found


def examples(page):
    """The commands of a page with what they print."""
    code = [block.content for block in blocks(page.sections.get("EXAMPLE", [])) if block.kind == "code"]
    return examples_in([line for lines in code for line in lines])
