"""The likeliest cause of a fault of lists, a matrix or quotas: which cell it is, and what is near it."""

import re
from fractions import Fraction

from office import names
from office.names import nearest, shown
from office.stated import LENGTHS, WORDS, cell

COUNT = re.compile(r"\d{1,39}")
SHARE = re.compile(r"|\d{1,39}|\d{1,39}/0*[1-9]\d*|\d{1,8}\.\d{1,30}")


def likely(kind, role, record, known):
    """What is likely wrong with the record, in words, or None. `known` is what both files state."""
    if record is None or not record.fields:
        return beyond(kind)
    if kind == "NotUtf8":
        return not_utf8(record)
    by_role = {"PREFS": of_lists, "MATRIX": of_matrix, "QUOTAS": of_quotas}
    return by_role[role](kind, record, known)


def beyond(kind):
    """A fault behind the last record."""
    return {
        "NoAgents": "below the header there is no row with a name",
        "NoHeader": "the file has no row with anything in it",
    }.get(kind)


def not_utf8(record):
    """Which cell isn't UTF-8, and what it is in Windows-1252."""
    for place, text in enumerate(record.fields, 1):
        data = text.encode("utf-8", "surrogateescape")
        if data != text.encode("utf-8", "replace"):
            meant = data.decode("cp1252", errors="replace")
            return f"cell {place} isn't UTF-8; in Windows-1252 it is {shown(meant)}"
    return None


def bad_names(record, places, beside=()):
    """Which of the cells at these places is no lawful name."""
    for place in places:
        wrong = names.fault(cell(record, place))
        if wrong or cell(record, place) in beside:
            return f"cell {place} is {shown(cell(record, place))}: {wrong or 'this name is not for an object'}"
    return None


def repeated(record, found, name):
    """Where the name stands already."""
    earlier = found.get(name)
    if earlier is None or earlier is record:
        return None
    return f"{shown(name)} stands on line {earlier.line} already"


def header(record):
    """Why a first record is no header."""
    first = cell(record, 1)
    if names.stripped(first).lower() == "agent":
        return f"the first cell is {shown(first)}; blanks and capitals count"
    if first in WORDS:
        return f"the row begins with {shown(first)}, as those of quotas do: the files may be in the wrong order"
    return f"the first cell is {shown(first)} and not `agent`"


def of_lists(kind, record, known):
    """Faults of preference lists."""
    choices = [it for it in record.fields[1:] if it]
    if kind == "NoHeader":
        return header(record)
    if kind == "RepeatedAgent":
        return repeated(record, known.agents, record.fields[0])
    if kind == "RepeatedChoice":
        twice = next((it for at, it in enumerate(choices) if it in choices[:at]), None)
        return twice and f"{shown(twice)} stands twice"
    if kind == "NullNotLast" and "none" in choices[:-1]:
        return f"{shown(choices[choices.index('none') + 1])} stands after `none`"
    if kind == "UnknownObject":
        return unknown_object(choices, known)
    if kind == "BadName":
        return bad_names(record, [1, *[at for at, it in enumerate(record.fields, 1) if it and at > 1]])
    return f"{len(known.agents)} agents are in the file" if kind == "OverLimit" else None


def unknown_object(choices, known):
    """The choice that no `object` record declares, and the one that is nearest."""
    unknown = next((it for it in choices if it != "none" and it not in known.objects), None)
    if unknown is None:
        return None
    return f"no `object` record of the quotas has {shown(unknown)}" + near(unknown, known.objects)


def near(name, found):
    other = nearest(name, list(found))
    if not other:
        return ""
    if names.key(name) == names.key(other):
        return f"; {shown(other)} is near, and the two differ only in {names.difference(name, other)}"
    return f"; {shown(other)} is near"


def of_matrix(kind, record, known):
    """Faults of a matrix of shares."""
    is_header = cell(record, 1) == "agent" and record is next(iter(known.objects.values()), record)
    if kind == "NoHeader":
        return header(record)
    if kind == "RepeatedName":
        twice = next((it for at, it in enumerate(record.fields) if at and it in record.fields[1:at]), None)
        return twice and f"{shown(twice)} heads two columns"
    if kind == "RepeatedAgent":
        return repeated(record, known.agents, record.fields[0])
    if kind == "WrongLength":
        return f"it has {len(record.fields) - 1} entries, and there are {len(known.objects)} objects"
    if kind == "BadName":
        places = range(1, len(record.fields) + 1) if is_header else [1]
        return bad_names(record, places, ("none",) if is_header else ())
    if kind == "BadNumber":
        wrong = next((it for it in record.fields[1:] if not SHARE.fullmatch(it)), None)
        return wrong and f"{shown(wrong)} is no share{why_no_share(wrong)}"
    return greatest(record.fields[1:]) if kind == "OverLimit" else None


def why_no_share(text):
    """What a cell is that is no share, where it shows."""
    if "%" in text:
        return ": it is a percentage"
    if re.fullmatch(r"\d*,\d+", text):
        return ": it has a decimal comma"
    if names.stripped(text) != text:
        return ": it has blanks"
    if text.startswith("-"):
        return ": it is below 0"
    return ": it begins with the point" if text.startswith(".") else ""


def greatest(fields):
    """The number above 1,000 among some fields."""
    high = next((it for it in fields if it and SHARE.fullmatch(it) and Fraction(it) > 1000), None)
    return high and f"{shown(high)} is above 1,000"


def of_quotas(kind, record, known):
    """Faults of quotas."""
    word, name = cell(record, 1), cell(record, 2)
    if kind == "UnknownKind":
        return unknown_kind(word)
    if kind == "WrongLength":
        return wrong_length(word, record)
    if kind == "BadName":
        return bad_names(record, [2])
    if kind == "RepeatedName":
        return repeated_name(word, name, record, known)
    if kind == "NoneInSet":
        return f"cell {record.fields.index('none') + 1} is `none`" if "none" in record.fields[1:] else None
    if kind == "UnknownName":
        return unknown_name(word, record, known)
    if kind == "OverLimit":
        counts = f"{len(known.numbered)} sets and {len(known.objects)} objects are stated"
        return greatest(record.fields[2:]) or counts
    return of_numbers(kind, word, record)


def of_numbers(kind, word, record):
    """Faults of a side, a floor and a ceiling."""
    at = 4 if word == "set" else 3
    side, floor, ceiling = cell(record, 3), cell(record, at), cell(record, at + 1)
    if kind == "BadNumber":
        if word == "set" and side not in ("1", "2"):
            return f"the side is {shown(side)}"
        wrong = next((it for it in (floor, ceiling) if it and not COUNT.fullmatch(it)), None)
        return wrong and f"{shown(wrong)} is no whole number"
    if kind == "FloorInSolve":
        return f"the floor is {floor}; the ceiling is the cell behind it"
    if kind == "SideInSolve":
        return "the side is 1; rules of side 1 are for shares, with `decompose`"
    if kind == "RowInSolve" and not ceiling:
        return f"the floor is {floor or 'missing'} and the ceiling is missing, so it is 1,000"
    return f"the floor is {floor or '0'} and the ceiling {ceiling or '1,000'}"


def unknown_kind(word):
    plain = names.stripped(word).lower()
    if plain in WORDS:
        return f"the first cell is {shown(word)}; blanks and capitals count"
    other = nearest(plain, WORDS)
    return f"the first cell is {shown(word)}" + (f"; `{other}` is near" if other else "")


def wrong_length(word, record):
    """How many cells there are, and how many are due."""
    least, most = LENGTHS.get(word, (1, None))
    due = f"{least} or more" if most is None else f"{least}" if least == most else f"{least} to {most}"
    more = "; a name with a comma may lack its quotes" if most and len(record.fields) > most else ""
    return f"it has {len(record.fields)} cells, and a row `{word}` has {due}{more}"


def repeated_name(word, name, record, known):
    """Where a name of the quotas stands already."""
    tables = {"object": known.objects, "group": known.groups, "bundle": known.bundles}
    if word == "set":
        return repeated(record, {it: one.record for it, one in known.sets.items()}, name)
    if word == "agent":
        return f"another `agent` row has {shown(name)} already"
    if word == "group" and name in known.agents or word == "bundle" and name in known.objects:
        what = "an agent" if word == "group" else "an object"
        return f"{shown(name)} is the name of {what}"
    return repeated(record, tables.get(word, {}), name) or f"another `{word}` row has {shown(name)} already"


def unknown_name(word, record, known):
    """Which cell names nothing, what is near, and whether it stands below."""
    sets = {it: one.record for it, one in known.sets.items()}
    agents, objects = {**known.agents, **known.groups}, {**known.objects, **known.bundles}
    looks = {
        "in": [(2, sets), (3, {**agents, "*": record}), (4, {**objects, "*": record})],
        "group": [(at, known.agents) for at in range(3, len(record.fields) + 1)],
        "bundle": [(at, known.objects) for at in range(3, len(record.fields) + 1)],
        "agent": [(2, known.agents)],
        "object": [(2, known.objects)],
    }
    for place, found in looks.get(word, []):
        name = cell(record, place)
        if (name or word == "in") and name not in found:
            return f"nothing has the name {shown(name)} of cell {place}" + near(name, found)
        if name in found and found[name].number > record.number and found[name] is not record and word == "in":
            return f"{shown(name)} stands on line {found[name].line}, below the row that names it"
    return None
