"""HTML from names and numbers: everything that isn't Markup already is escaped, and no number is ever a float."""

import html
from fractions import Fraction


class Markup(str):
    """Text that is HTML already."""


def escaped(part):
    return part if isinstance(part, Markup) else html.escape(str(part), quote=False)


def join(parts, between=""):
    return Markup(between.join(map(escaped, parts)))


def tag(kind, *parts, **attributes):
    """An element. An attribute `class_` is `class`, and one that is None is left out."""
    given = ((key.rstrip("_").replace("_", "-"), value) for key, value in attributes.items() if value is not None)
    shown = "".join(f' {key}="{html.escape(str(value))}"' for key, value in given)
    return Markup(f"<{kind}{shown}>{join(parts)}</{kind}>")


def name(text):
    """A name by itself, so that its direction of writing changes nothing around it."""
    return tag("bdi", text)


def names(texts):
    return tag("ul", *(tag("li", name(text)) for text in texts), class_="names")


def column_name(text):
    return tag("i", text) if text == "none" else name(text)


def paragraph(*parts, **attributes):
    return tag("p", *parts, **attributes)


def section(key, title, *parts):
    return tag("section", tag("h2", title, id=f"{key}-title"), *parts, id=key, aria_labelledby=f"{key}-title")


def table(kind, head, rows):
    """A table whose rows are lists of cells; the first cell of each row heads it."""
    top = tag("thead", tag("tr", *(tag("th", cell, scope="col") for cell in head)))
    lines = (tag("tr", tag("th", row[0], scope="row"), *row[1:]) for row in rows)
    return tag("table", top, tag("tbody", *join_lines(lines)), class_=kind)


def join_lines(parts):
    for part in parts:
        yield part
        yield Markup("\n")


def cell(*parts, label=None, **attributes):
    return tag("td", *parts, data_label=label, **attributes)


def counted(number, one, many):
    """A number with its noun."""
    return f"{number} {one if number == 1 else many}"


def units_text(units, denominator):
    """Odds as the lottery has them."""
    return f"{units}/{denominator}" if units else "0"


def moment_text(moment, denominator):
    """A moment in parts of the denominator, or in lowest terms where it is no whole number of them."""
    parts = moment * denominator
    return f"{parts}/{denominator}" if parts.denominator == 1 and moment not in (0, 1) else str(moment)


def percent_text(units, denominator):
    """The whole percents, or the two between which the odds lie."""
    low, rest = divmod(units * 100, denominator)
    return f"{low}–{low + 1} %" if rest else f"{low} %"


def shade(units, denominator):
    """One of eleven shades, 0 only where the odds are 0, and 10 only for the whole."""
    if units == 0:
        return 0
    return 10 if units >= denominator else 1 + units * 9 // denominator


def position(value):
    """A place from 0 to 1 as a percentage with two digits, which is as fine as a drawing needs."""
    whole, rest = divmod(int(Fraction(value) * 10000), 100)
    return f"{whole}.{rest:02}%"


def tickets_text(first, weight):
    return f"{first}" if weight == 1 else f"{first}–{first + weight - 1}"
