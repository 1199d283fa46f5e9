"""What exports of spreadsheets do wrong: the mistakes that show in the files of a command."""

import re
from dataclasses import dataclass, field

from office import names, texts
from office.records import records
from office.stated import WORDS, cell

ROLES = {
    "PREFS": "preference lists",
    "MATRIX": "a matrix of shares",
    "QUOTAS": "quotas",
    "LOTTERY": "a lottery",
    "PACT": "a pact",
}
MONTH = (
    r"(?:jan|feb|fév|fev|mar|mär|mrz|apr|avr|may|mai|jun|juin|jul|juil|aug|aou|aoû|sep|oct|okt|nov|dec|dez|déc)"
    r"[a-zéûä]*\.?"
)
DATE = re.compile(
    rf"\d{{1,2}}[./-]\d{{1,2}}[./-](?:\d{{4}}|\d{{2}})?|\d{{4}}-\d{{1,2}}-\d{{1,2}}"
    rf"|\d{{1,2}}[. -]+{MONTH}(?:[. -]+\d{{2,4}})?|{MONTH}[ -]+\d{{1,4}}",
    re.IGNORECASE,
)
PERCENT = re.compile(r"\s*\d+(?:[.,]\d+)?\s*%\s*")
DECIMAL_COMMA = re.compile(r"\d+,\d+")
SHARE = re.compile(r"\d+(?:/\d+|\.\d+)?")
HEAD = 10
HEAD_BYTES = 65_536


@dataclass(frozen=True)
class Finding:
    """A mistake: where it stands, what it is, and what to do."""

    place: str
    wrong: str
    remedy: str


@dataclass
class Export:
    """A file of a command: its path and role, its text, what parts its fields, and its records."""

    path: str
    role: str
    encoding: str
    separator: str
    stated_separator: str
    records: list
    doubtful: tuple = ()
    findings: list = field(default_factory=list)

    def at(self, record):
        return f"{self.path}, line {record.line}"

    def filled(self):
        return [it for it in self.records if it.fields]

    def add(self, place, wrong, remedy):
        self.findings.append(Finding(place, wrong, remedy))


def load(path, role, data):
    """A file as its export was meant: decoded, and parted by what parts it."""
    decoded = texts.decode(data)
    stated = texts.separator_line(decoded.text)
    text = texts.without_first_line(decoded.text) if stated else decoded.text
    fitting = [stated] if stated else separators(text)
    separator = fitting[0] if len(fitting) == 1 else ","
    found = records(text, separator, 2 if stated else 1)
    return Export(path, role, decoded.encoding, separator, stated, found, tuple(fitting if len(fitting) > 1 else ()))


def begins(record, words):
    """Whether the first cell is one of these words, but for blanks and capitals."""
    return names.stripped(cell(record, 1)).lower() in words


def separators(text):
    """The separators that the text may have: one, or several where it can't be told."""
    present = [it for it in texts.SEPARATORS if it in text]
    if len(present) < 2:
        return present or [","]
    known = (*WORDS, "lottery", "pact")
    parted = {it: records(text, it) for it in present}
    heads = {it: [record for record in found if record.fields][:HEAD] for it, found in parted.items()}
    fitting = [it for it in present if any(begins(one, known) and len(one.fields) > 1 for one in heads[it])]
    if len(fitting) > 1:
        # The word alone may be a header without further cells: then the rows decide.
        regular = [it for it in fitting if _is_regular(heads[it])]
        return regular or fitting
    return fitting or present


def _is_regular(head):
    """Whether every record of a head is parted at all."""
    return all(len(record.fields) > 1 or record.width > 1 for record in head)


def is_number(text):
    """Whether a cell is a share, or what exports make of one."""
    return any(it.fullmatch(text) for it in (SHARE, DECIMAL_COMMA, PERCENT, DATE))


def guess(export):
    """The role that the records look like, or None."""
    filled = export.filled()
    if not filled:
        return None
    if begins(filled[0], ("lottery", "pact")):
        return names.stripped(cell(filled[0], 1)).upper()
    of_quotas = [it for it in filled if begins(it, WORDS)]
    if any(not begins(it, ("agent",)) for it in of_quotas) and 2 * len(of_quotas) >= len(filled):
        return "QUOTAS"
    header = next((it for it in filled[:HEAD] if begins(it, ("agent",))), None)
    if header is None or len(of_quotas) > 1 or len(filled) == 1:
        return "QUOTAS" if 1 < len(of_quotas) == len(filled) else None
    entries = [it for record in filled if record.number > header.number for it in record.fields[1:] if it]
    numbers = [it for it in entries if is_number(it)]
    if entries and len(numbers) * 2 > len(entries) and any(set(it) & set("/.,%") for it in numbers):
        return "MATRIX"
    return "MATRIX or PREFS" if numbers or not entries else "PREFS"


def head_of(data):
    """The first lines of a lottery, which may be very long: a mistake of an export shows in them."""
    return data if len(data) <= HEAD_BYTES else data[:HEAD_BYTES].rpartition(b"\n")[0]


def look(files):
    """All mistakes that show in the files of a command: (path, role, bytes) each; bytes are None for no such file."""
    exports = [load(path, role, head_of(data) if role == "LOTTERY" else data) for path, role, data in files if data]
    found = wrong_order(exports)
    for export in exports:
        for search in OF_ALL + OF_ROLE.get(export.role, OF_TABLES):
            search(export)
        found += export.findings
    return found + alike([it for it in exports if it.role != "LOTTERY"])


def encoding(export):
    """UTF-16, or bytes that aren't UTF-8."""
    if export.encoding.startswith("utf-16"):
        export.add(export.path, "the file is UTF-16, and the program reads UTF-8", by_tidy(export))
    elif export.encoding == "cp1252":
        for record in export.records:
            for text in record.fields:
                if not text.isascii():
                    wrong = f"the file isn't UTF-8; as Windows-1252 this cell is {names.shown(text)}"
                    return export.add(export.at(record), wrong, by_tidy(export))
    return None


def by_tidy(export):
    """What to do about an encoding or a separator."""
    if export.role == "LOTTERY":
        return "take the file as it was written; no program may save it in another way"
    if export.role == "PACT":
        return "save it as CSV UTF-8 with commas"
    return f"bin/tidy {export.path} NEW.csv makes a file as the program reads it; or save it as CSV UTF-8 with commas"


def separator(export):
    """A line `sep=`, other separators than commas, or several that may be."""
    if export.stated_separator:
        wrong = "the line `sep=` is for a spreadsheet; here it is a record"
        export.add(f"{export.path}, line 1", wrong, by_tidy(export))
    if export.doubtful:
        which = " or ".join(texts.SEPARATORS[it] for it in export.doubtful)
        remedy = "save it as CSV UTF-8 with commas, and names that have one in quotes"
        export.add(export.path, f"it can't be told whether {which} part the fields", remedy)
    elif export.separator != ",":
        which = texts.SEPARATORS.get(export.separator, export.separator)
        at = export.filled()[0] if export.filled() else None
        place = export.at(at) if at else export.path
        export.add(place, f"{which} part the fields, and the program reads commas", by_tidy(export))


def open_quote(export):
    """A quote that is never closed, so that all behind it is one cell."""
    for record in export.records:
        if record.is_open:
            wrong = "a quote in this row is never closed, and all behind it is one cell"
            export.add(export.at(record), wrong, "look for a quote at the head of a cell, and close it or remove it")


def title(export):
    """Rows above the header of lists or a matrix, or a first row of quotas that is no record."""
    filled = export.filled()[:HEAD]
    words = WORDS if export.role == "QUOTAS" else ("agent",)
    known = [it for it in filled if begins(it, words)]
    is_other = export.role not in (guess(export) or export.role)
    if filled and known and not begins(filled[0], words) and not is_other:
        due = "and quotas have none" if export.role == "QUOTAS" else "and the first row is to be the header"
        wrong = f"{names.shown(filled[0].shown(40))} looks like a title, {due}"
        export.add(export.at(filled[0]), wrong, f"remove the rows above line {known[0].line}")


def capitals(export):
    """Words of the first column in capitals."""
    words = WORDS if export.role == "QUOTAS" else ("agent",)
    rows = export.filled() if export.role == "QUOTAS" else export.filled()[:1]
    wrong = [it for it in rows if begins(it, words) and names.stripped(cell(it, 1)) not in words]
    if wrong:
        found = names.stripped(cell(wrong[0], 1))
        text = f"{names.shown(found)} has a capital; the word is `{found.lower()}`" + and_more(len(wrong) - 1)
        export.add(export.at(wrong[0]), text, "write it in small letters, or take bin/tidy")


def and_more(count):
    return f" (and {count} more such rows)" if count > 1 else " (and one more such row)" if count else ""


def entries(export, pattern):
    """The entries of a matrix that look so, each with its record."""
    if export.role != "MATRIX":
        return []
    rows = export.filled()[1:]
    return [(record, text) for record in rows for text in record.fields[1:] if pattern.fullmatch(text)]


def decimal_commas(export):
    """Shares such as 0,5: in marks, or taken apart by the comma."""
    found = entries(export, DECIMAL_COMMA)
    if found:
        wrong = f"`{found[0][1]}` has a decimal comma" + and_more(len(found) - 1)
        remedy = "write a point, as 0.5, or take bin/tidy with --decimal-commas"
        export.add(export.at(found[0][0]), wrong, remedy)
    elif export.role == "MATRIX" and export.filled():
        width = len(export.filled()[0].fields)
        for record in export.filled()[1:]:
            if len(record.fields) > width and all(re.fullmatch(r"\d*", it) for it in record.fields[1:]):
                wrong = "the row has more entries than objects, all of digits: decimal commas part them"
                remedy = "write a point, as 0.5, in the spreadsheet, and save it again"
                return export.add(export.at(record), wrong, remedy)
    return None


def percents(export):
    found = entries(export, PERCENT)
    if found:
        wrong = f"`{found[0][1]}` is a percentage" + and_more(len(found) - 1)
        remedy = "a share is a part of one: write 0.5 for 50%, and 1/3 for a third, of which 33% falls short"
        export.add(export.at(found[0][0]), wrong, remedy)


def dates(export):
    found = entries(export, DATE)
    if found:
        wrong = f"`{found[0][1]}` is a date, which a spreadsheet makes of a share such as 1/2"
        wrong += and_more(len(found) - 1)
        remedy = "format the cells as text, and then write the shares again"
        export.add(export.at(found[0][0]), wrong, remedy)


def named(export):
    """Each cell that is a name or a word, with its record: all but those of a header of lists, which are free."""
    rows = export.filled()
    for record in rows:
        is_header = export.role == "PREFS" and record is rows[0]
        for text in record.fields[:1] if is_header else record.fields:
            yield record, text


def blanks(export):
    """Blanks at the ends of cells. A cell of several lines is another matter."""
    found = [(record, text) for record, text in named(export) if names.stripped(text) != text and "\n" not in text]
    if found:
        record, text = found[0]
        more = len(found) - 1
        wrong = f"{names.shown(text)} has blanks at its ends, which count"
        wrong += f" (and {more} more such cells)" if more else ""
        remedy = "remove them" if export.role == "PACT" else "remove them, or take bin/tidy"
        export.add(export.at(record), wrong, remedy)


def alike(exports):
    """Two names that differ only in blanks, or in the form of their accents."""
    first, found = {}, []
    for export in exports:
        for record, text in named(export):
            one = first.setdefault(names.key(text), (text, export, record))
            if one[0] != text and one[0]:
                wrong = f"{names.shown(text)} and {names.shown(one[0])} ({one[1].at(one[2])}) differ only in "
                wrong += names.difference(text, one[0])
                remedy = "write the name in one way; two who share a name need names that can be told apart"
                found.append(Finding(export.at(record), wrong, remedy))
                first[names.key(text)] = ("", export, record)
    return found


def wrong_order(exports):
    """Files that look like those of other places of the command."""
    found = []
    for export in exports:
        looks = guess(export)
        if looks and export.role not in looks:
            fitting = [it.path for it in exports if guess(it) and export.role in guess(it)]
            wrong = f"this is the file for {ROLES[export.role]}, and it looks like {ROLES[looks.split()[0]]}"
            remedy = f"{fitting[0]} may be the one: look at the order of the files" if fitting else None
            found.append(Finding(export.path, wrong, remedy or "look for the right file"))
    return found


OF_ALL = (encoding, separator)
OF_TABLES = (open_quote, title, capitals, decimal_commas, percents, dates, blanks)
OF_ROLE = {"LOTTERY": (), "PACT": (open_quote, blanks)}
