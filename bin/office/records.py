"""The records of a text as docs/FORMATS.md counts them, each with the line of the file on which it begins."""

import re
from dataclasses import dataclass

LINE_END = re.compile(r"\r\n|\r|\n")


@dataclass(frozen=True)
class Record:
    """A record: its number, its line, its fields up to the last that isn't empty, how many it has with those, and
    whether a quote in it is never closed."""

    number: int
    line: int
    fields: tuple
    width: int
    is_open: bool = False

    def shown(self, most=76):
        """The record as a line of text, cut where it is long."""
        text = row(self.fields).replace("\r", "\\r").replace("\n", "\\n")
        return text if len(text) <= most else text[: most - 3] + "..."


def quoted(field, separator=","):
    """A field as it is written: quoted where it must be."""
    if any(mark in field for mark in (separator, '"', "\r", "\n")):
        return '"' + field.replace('"', '""') + '"'
    return field


def row(fields):
    """The text of a record, without its end. One of empty fields alone is an empty line, which is no record."""
    return ",".join(quoted(field) for field in fields)


def trimmed(fields):
    """The fields up to the last that isn't empty."""
    count = len(fields)
    while count and not fields[count - 1]:
        count -= 1
    return tuple(fields[:count])


def records(text, separator=",", line=1):
    """All records of a text that begins on this line of its file. Blank lines are none."""
    found = []
    for at, fields, is_open in _plain(text, separator) if '"' not in text else _quoted(text, separator):
        found.append(Record(len(found) + 1, line + at, trimmed(fields), len(fields), is_open))
    return found


def _plain(text, separator):
    for at, line in enumerate(LINE_END.split(text)):
        if line:
            yield at, line.split(separator), False


def _quoted(text, separator):
    """A quote counts at the head of a field; text behind its end joins the field; an open one ends with the text."""
    sep = re.escape(separator)
    field = re.compile(rf'(?:"([^"]*(?:""[^"]*)*)(?:"([^{sep}\r\n]*)|\Z)|([^{sep}\r\n]*))({sep}|\r\n|\r|\n|\Z)')
    is_open = False
    blank = re.compile(r"[\r\n]+")
    at = line = 0
    while at < len(text):
        if skipped := blank.match(text, at):
            line += len(LINE_END.findall(skipped[0]))
            at = skipped.end()
            continue
        begun, fields, end = line, [], separator
        while end == separator:
            found = field.match(text, at)
            inside, rest, plain, end = found.groups()
            fields.append(plain if inside is None else inside.replace('""', '"') + (rest or ""))
            is_open = inside is not None and rest is None
            line += len(LINE_END.findall(found[0]))
            at = found.end()
        yield begun, fields, is_open
