"""What bin/tidy does: it makes of an export a file that the program reads, and lists every change."""

import argparse
import os
import re

from office import exports, names, texts
from office.records import LINE_END, Record, records, row, trimmed
from office.telling import say as write
from office.whole import Unwritable, is_same, write_whole

USAGE, NO_TEXT, DEVICE, UNDECIDED = 2, 3, 4, 7
# What may stand in a name that was Windows-1252: letters, and marks of print.
LIKELY = re.compile(r"[\x00-\x7fÀ-ÖØ-öø-ÿŠšŽžŒœŸ’‘“”„‚–—…«»€°·ªº¡¿\xa0]*")
CAPITAL_INSIDE = re.compile(r"[^\W\d_][ŠŽŒŸ](?=[a-zß-öø-ÿ])|[a-zß-öø-ÿ][ŠŽŒŸ]")


class Stop(Exception):
    """Why nothing is written, with the status."""

    def __init__(self, status, why):
        super().__init__(why)
        self.status = status


def decoded(data, encoding):
    """The text of an export, or Stop where it is none, or where its encoding can't be told."""
    if data.startswith(b"PK\x03\x04"):
        raise Stop(NO_TEXT, "it is a workbook (or another archive) and no text: save the sheet as CSV UTF-8")
    try:
        found = texts.decode(data, encoding)
    except LookupError as error:
        raise Stop(USAGE, f"{encoding} is no encoding that is known here") from error
    if "\0" in found.text:
        raise Stop(NO_TEXT, "it has zero bytes, so it is no text")
    if "\ufffd" in found.text and found.encoding.startswith("utf-16") or any(
        "\udc80" <= it <= "\udcff" for it in found.text
    ):
        named = texts.NAMES.get(found.encoding, found.encoding)
        raise Stop(UNDECIDED, f"it isn't {named} throughout; say --encoding NAME")
    if found.encoding == "cp1252" and not encoding:
        doubt = doubtful(found.text)
        if doubt:
            wrong = f"as Windows-1252 it would have {names.shown(doubt)}, so it may be in another encoding"
            raise Stop(UNDECIDED, f"{wrong}; say --encoding cp1252, or its name (mac_roman, cp1250 ..)")
    return found


def doubtful(text):
    """A word that is unlikely in Windows-1252, or None."""
    parts = re.split(r"[,;\t\r\n\"]", text)
    return next((it for it in parts if not LIKELY.fullmatch(it) or CAPITAL_INSIDE.search(it)), None)


def parted(text, stated, line, asked):
    """The records, and the separator, or Stop where several may part them."""
    fitting = [asked] if asked else [stated] if stated else exports.separators(text)
    if len(fitting) > 1:
        which = " or ".join(texts.SEPARATORS[it] for it in fitting)
        raise Stop(UNDECIDED, f"{which} may part the fields; say --separator comma, semicolon or tab")
    return records(text, fitting[0], line), fitting[0]


class Changes:
    """The list of changes, as it grows."""

    def __init__(self):
        self.lines = []

    def whole(self, text):
        self.lines.append(f"the file: {text}")

    def at(self, record, text, place=None):
        self.lines.append(f"line {record.line}{f', cell {place}' if place else ''}: {text}")


def tidied(export, changes, with_points):
    """The records of a tidy file."""
    role, found = exports.guess(export), []
    for record in export.records:
        if not record.fields:
            changes.at(record, "an empty row, left out")
            continue
        cells = [tidy_cell(record, at, text, changes, with_points) for at, text in enumerate(record.fields, 1)]
        words = exports.WORDS if role == "QUOTAS" else () if found else ("agent",)
        if cells[0] != cells[0].lower() and exports.begins(record, words):
            changes.at(record, f"{names.shown(cells[0])} is now `{cells[0].lower()}`", 1)
            cells[0] = cells[0].lower()
        if record.width > len(record.fields):
            changes.at(record, "empty cells at its end, left out")
        found.append(Record(len(found) + 1, record.line, trimmed(cells), len(cells)))
    return [it for it in found if it.fields]


def tidy_cell(record, place, text, changes, with_points):
    """A cell without blanks at its ends, and where it is asked for with a point for a decimal comma."""
    cell = names.stripped(text)
    if cell != text:
        changes.at(record, f"{names.shown(text)} is now {names.shown(cell)}", place)
    if place > 1 and exports.DECIMAL_COMMA.fullmatch(cell):
        point = cell.replace(",", ".")
        changes.at(record, f"`{cell}` is now `{point}`" if with_points else
                   f"`{cell}` is left as it is; --decimal-commas makes it `{point}`", place)
        return point if with_points else cell
    return cell


def stop_on_clash(export, found):
    """Names that were two must not be one now: of two rows, or of two columns of a matrix."""
    role, first = exports.guess(export) or "", {}
    old = {it.line: it.fields for it in export.records}
    for record in found:
        key = record.fields[:2] if role == "QUOTAS" else record.fields[:1]
        if role != "QUOTAS" or key[0] != "in":
            stop_on_two(first, key, old[record.line][: len(key)], record)
    if role.startswith("MATRIX") and found:
        first = {}
        for name, before in zip(found[0].fields, old[found[0].line]):
            stop_on_two(first, name, (before,), found[0])


def stop_on_two(first, key, before, record):
    """Stops where the key of a row or column was written in another way before."""
    earlier, line = first.setdefault(key, (before, record.line))
    if earlier != before:
        wrong = f"line {record.line}: {names.shown(before[-1])} and {names.shown(earlier[-1])} on line {line}"
        raise Stop(UNDECIDED, f"{wrong} would have one name; they may be two, or one: mend them by hand")


def stop_on_commas(export, with_points):
    """Decimal commas that part fields can't be told from other commas."""
    filled = export.filled()
    if not with_points or export.separator != "," or not filled:
        return
    for record in filled[1:]:
        if len(record.fields) > len(filled[0].fields):
            wrong = f"line {record.line}: it has more cells than the header, so commas part both cells and numbers"
            raise Stop(UNDECIDED, f"{wrong}; export it with semicolons")


def tidy(data, options, changes):
    """The text of the tidy file."""
    found = decoded(data, options.encoding)
    if found.encoding != "utf-8":
        mark = ", and the mark at its head is left off" if data[:2] in (b"\xff\xfe", b"\xfe\xff") else ""
        named = "a mark at its head is left off" if found.encoding == "utf-8-sig" else (
            f"it was {texts.NAMES.get(found.encoding, found.encoding)} and is now UTF-8{mark}")
        changes.whole(named)
    stated = texts.separator_line(found.text)
    text = texts.without_first_line(found.text) if stated else found.text
    if stated:
        changes.whole("its first line, `sep=`, is left out")
    rows, separator = parted(text, stated, 2 if stated else 1, options.separator)
    if separator != ",":
        changes.whole(f"{texts.SEPARATORS.get(separator, separator)} that part cells are now commas")
    export = exports.Export(options.old, "PREFS", found.encoding, separator, stated, rows)
    if rows and rows[-1].is_open:
        wrong = f"line {rows[-1].line}: a quote in this row is never closed, and all behind it is one cell"
        raise Stop(UNDECIDED, f"{wrong}; close it, or remove it")
    stop_on_commas(export, options.decimal_commas)
    told_of_letters(export, changes)
    made = tidied(export, changes, options.decimal_commas)
    export.role = exports.guess(export) or "PREFS"
    exports.title(export)
    changes.lines += [f"{it.place.partition(', ')[2]}: {it.wrong}; it is left as it is" for it in export.findings]
    stop_on_clash(export, made)
    result = "".join(row(it.fields) + "\n" for it in made)
    told_of_form(text, result, changes)
    return result


def told_of_letters(export, changes):
    """Of an encoding that was guessed each cell is told that hangs on it."""
    for record in export.records if export.encoding == "cp1252" else ():
        for place, text in enumerate(record.fields, 1):
            if not text.isascii():
                changes.at(record, f"read as {names.shown(text)}", place)


def told_of_form(text, result, changes):
    """Changes of line ends, empty lines and quotes."""
    if "\r" in text:
        changes.whole("each line ends with a line feed alone")
    if text and not text.endswith(("\r", "\n")):
        changes.whole("its last line has an end")
    if "" in LINE_END.split(text)[:-1]:
        changes.whole("empty lines are left out")
    if text.count('"') != result.count('"'):
        changes.whole("cells have quotes where they need them and nowhere else")


def options_of(words):
    """The words, read; argparse ends with 2 where they are wrong."""
    parser = argparse.ArgumentParser(prog="tidy", description="Makes of an export a file that the program reads.")
    parser.add_argument("old", metavar="IN")
    parser.add_argument("new", metavar="OUT")
    parser.add_argument("--decimal-commas", action="store_true", help="0,5 becomes 0.5")
    parser.add_argument("--encoding", metavar="NAME", help="the encoding of IN, where it can't be told")
    parser.add_argument("--separator", choices=("comma", "semicolon", "tab"), help="what parts the cells of IN")
    options = parser.parse_args(words)
    options.separator = {"comma": ",", "semicolon": ";", "tab": "\t", None: None}[options.separator]
    return options


def main(words):
    """Reads IN, writes OUT whole, and lists the changes; returns the status."""
    options, changes = options_of(words), Changes()
    try:
        if is_same(options.old, options.new):
            raise Stop(USAGE, "OUT is the file IN, and IN is never changed")
        result = tidy(texts.read_bytes(options.old), options, changes)
        write_whole(options.new, result.encode("utf-8"))
    except texts.Unreadable as error:
        return say(f"{options.old}: {error}", DEVICE)
    except Unwritable as error:
        return say(f"{options.new}: {error}", DEVICE)
    except Stop as error:
        return say(f"{options.old}: {error}", error.status)
    for line in changes.lines or ["the file: nothing had to be changed"]:
        say(f"{options.old}: {line}", 0)
    return 0


def say(text, status):
    """Writes a line to standard error and gives the status."""
    write(f"tidy: {text}")
    return status
