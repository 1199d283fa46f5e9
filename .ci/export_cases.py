#!/usr/bin/env python3
"""export_cases.py: writes to the current folder the lists of 40 children as spreadsheets export them.

`due.csv` is the file that each `export-*.csv` should become; it is written by Python's own writer. `due-shares.csv`
and `shares-*.csv` are the same of a matrix with decimal commas.
"""

import csv
import io

FIRST = ("Ada", "Björn", "Chloé", "Dario", "Zoë", "Émile", "Françoise", "Günther")
LAST = ("Müller", "Lopez", "O'Neill", "Sørensen", "da Silva")
SCHOOLS = ("Höhe", "Riverside", "Meadow, upper", 'The "Mill"')


def children():
    """Forty names: some have commas, some letters beyond ASCII, some blanks within."""
    return [f"{LAST[at // 8]}, {FIRST[at % 8]}" if at % 3 else f"{FIRST[at % 8]} {LAST[at // 8]}" for at in range(40)]


def rows():
    """The lists: one to four choices each, in turned orders."""
    yield ["agent", "first choice", "second choice", "third choice", "fourth choice"]
    for at, name in enumerate(children()):
        choices = [SCHOOLS[(at + step) % 4] for step in range(1 + at % 4)]
        yield [name, *choices]


def text(lines, delimiter=",", end="\n"):
    """The rows as Python's own writer has them."""
    made = io.StringIO()
    csv.writer(made, delimiter=delimiter, lineterminator=end).writerows(lines)
    return made.getvalue()


def wide(lines):
    """The rows with an empty cell for each that is missing, and an empty row at the end."""
    return [row + [""] * (5 - len(row)) for row in lines] + [[""] * 5]


def blank(lines):
    """The rows with blanks at the ends of cells."""
    return [[f" {cell}" if at % 2 else f"{cell}\u00a0 " for at, cell in enumerate(row)] for row in lines]


def quoted(lines, delimiter):
    made = io.StringIO()
    csv.writer(made, delimiter=delimiter, lineterminator="\r\n", quoting=csv.QUOTE_ALL).writerows(lines)
    return made.getvalue()


def exports(lines):
    """The exports by their names, each with its encoding."""
    semicolons, plain = text(lines, ";", "\r\n"), text(lines)
    return {
        "plain": (plain, "utf-8"),
        "semicolons": (semicolons, "utf-8"),
        "semicolons-wide": (text(wide(lines), ";", "\r\n"), "utf-8"),
        "tabs": (text(lines, "\t", "\r\n"), "utf-8"),
        "utf-16": (text(lines, "\t", "\r\n"), "utf-16"),
        "utf-16-be": ("\ufeff" + semicolons, "utf-16-be"),
        "utf-8-mark": ("\ufeff" + semicolons, "utf-8"),
        "windows-1252": (semicolons, "cp1252"),
        "windows-1252-tabs": (text(lines, "\t"), "cp1252"),
        "crlf": (text(lines, ",", "\r\n"), "utf-8"),
        "cr": (text(lines, ",", "\r"), "utf-8"),
        "blanks": (text(blank(lines), ";"), "utf-8"),
        "sep": ("sep=;\r\n" + semicolons, "utf-8"),
        "sep-mark": ("\ufeffsep=;\r\n" + semicolons, "utf-8"),
        "quotes": (quoted(lines, ";"), "utf-8"),
        "no-end": (plain.rstrip("\n"), "utf-8"),
        "empty-lines": (plain.replace("\n", "\n\n"), "utf-8"),
    }


def write(name, made, encoding="utf-8"):
    with open(name, "wb") as file:
        file.write(made.encode(encoding))


def main():
    lines = list(rows())
    write("due.csv", text(lines))
    for name, (made, encoding) in exports(lines).items():
        write(f"export-{name}.csv", made, encoding)
    write("quotas.csv", text(["object", name, "", "10"] for name in SCHOOLS))
    shares = [["agent", "minutes", "budget"], ["Amara", "0,25", "1/2"], ["Bilal", "0,75", "1"], ["Chiara", "", "1,5"]]
    write("due-shares.csv", text([cell.replace(",", ".") for cell in row] for row in shares))
    write("shares-semicolons.csv", text(shares, ";"))
    write("shares-commas.csv", text(shares))


main()
