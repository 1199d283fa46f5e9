"""The tables of docs/COMMANDS.md, from which the words of every hint come: commands, causes, kinds and checks."""

import os
import re
from dataclasses import dataclass

TOP = os.path.dirname(os.path.dirname(os.path.dirname(os.path.realpath(__file__))))
PAGE = os.path.join(TOP, "docs", "COMMANDS.md")
INPUT_KINDS = "Kinds of faults of preference lists, matrices and quotas"
LOTTERY_KINDS = "Kinds of faults of a lottery"
PACT_KINDS = "Kinds of faults of a pact"
FILES = ("PREFS", "MATRIX", "QUOTAS", "LOTTERY", "PACT")


@dataclass(frozen=True)
class Cause:
    """A row of the table of causes, and what its line on standard error says in place of its letters."""

    name: str
    wrong: str
    remedy: str
    values: dict


@dataclass(frozen=True)
class Kind:
    """A row of a table of kinds, or of the checks of an audit."""

    number: int
    name: str
    wrong: str
    remedy: str


def page():
    """The text of docs/COMMANDS.md."""
    with open(PAGE, encoding="utf-8") as file:
        return file.read()


def tables(text, heading):
    """The first table below a heading: its rows, each a list of cells."""
    part = re.split(rf"^#+ {re.escape(heading)}$", text, maxsplit=1, flags=re.MULTILINE)[1]
    lines = re.search(r"(?:^\|.*\n?)+", part, re.MULTILINE)[0].splitlines()
    return [[cell.strip() for cell in line.strip().strip("|").split("|")] for line in lines[2:]]


def commands(text):
    """The words of each command: its name, and the words in capitals that stand for what follows."""
    return [cells[0].strip("`").split() for cells in tables(text, "The commands")]


def kinds(text, heading):
    """The kinds of a table by their numbers."""
    rows = tables(text, heading)
    return {int(cells[0]): Kind(int(cells[0]), cells[1], cells[2], cells[3]) for cells in rows}


def checks(text):
    """The checks of an audit by their numbers; in place of a remedy each has the names of its fields."""
    rows = tables(text, "The checks of an audit")
    return {int(cells[0]): Kind(int(cells[0]), cells[1], cells[3], cells[2]) for cells in rows}


def _pattern(line):
    """What a line of the table of causes stands for: a capital alone is a number, a blank at its end some numbers."""
    text = re.match(r"`([^`]*)`", line)
    if text is None:
        return None
    pattern = re.sub(r"\b([A-Z])\b", r"(?P<\1>\\d+)", re.escape(text[1]).replace("\\ ", " "))
    return pattern + "(?P<numbers>[-0-9 ]+)" if text[1].endswith(" ") else pattern


def cause_of(text, line, command):
    """The cause that a line on standard error names, or None. Where two causes share a line, that of the command."""
    found = []
    for name, wrong, said, _, remedy in tables(text, "How a run ends"):
        pattern = _pattern(said)
        match = re.fullmatch(pattern, line) if pattern else None
        if match:
            found.append(Cause(name, wrong, remedy, match.groupdict()))
    fitting = [it for it in found if f"`{command}`" in it.wrong.partition(":")[0]]
    return (fitting or found or [None])[0]
