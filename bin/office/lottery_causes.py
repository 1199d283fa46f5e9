"""The likeliest cause of a fault of a lottery file: which field it is, or what is missing above it."""

import re

from office import names
from office.input_causes import COUNT, near, not_utf8
from office.names import shown
from office.stated import cell

LENGTHS = {"lottery": 2, "denominator": 2, "price": 3, "worth": 4, "piece": 3, "give": 4, "end": 2}
SIGNED = re.compile(r"-?\d{1,38}")


def likely(kind, record, records):
    """What is likely wrong with the record, in words, or None."""
    above = [it for it in records if it.fields and (record is None or it.number < record.number)]
    if kind == "CutOff":
        return f"the last record is {shown(above[-1].shown())}, on line {above[-1].line}" if above else "it is empty"
    if record is None or not record.fields:
        return None
    searches = {
        "NotUtf8": lambda: not_utf8(record),
        "WrongOrder": lambda: wrong_order(record, above),
        "WrongLength": lambda: wrong_length(record, above),
        "BadNumber": lambda: bad_number(record, above),
        "UnknownName": lambda: unknown_name(record, above),
        "WeightsDontAdd": lambda: weights(record, above),
        "OverLimit": lambda: over_limit(record),
        "UnknownVersion": lambda: f"the version is {shown(cell(record, 2))}",
        "BadName": lambda: bad_name(record),
    }
    return searches[kind]() if kind in searches else None


def names_of(above, word):
    """The names of the record `agents` or `objects`."""
    return next((it.fields[1:] for it in above if it.fields[0] == word), ())


def wrong_order(record, above):
    """What stands above a record that may not stand where it does."""
    if not above:
        return f"a lottery begins with `lottery,1`, and this file with {shown(record.shown(40))}"
    last = above[-1]
    return f"the record above it, on line {last.line}, is {shown(last.shown(40))}"


def wrong_length(record, above):
    """How many fields there are, and how many are due."""
    due = LENGTHS.get(record.fields[0])
    if record.fields[0] == "row":
        due = len(names_of(above, "objects")) + 2
    due = "2 or more" if due is None else due
    return f"it has {len(record.fields)} fields, and a record `{record.fields[0]}` here has {due}"


def bad_number(record, above):
    """Which field is no number, or the number of pieces that is due."""
    word = record.fields[0]
    numbers = {"row": record.fields[2:], "worth": record.fields[3:], "give": record.fields[3:]}
    pattern = SIGNED if word == "worth" else COUNT
    wrong = next((it for it in numbers.get(word, record.fields[1:]) if not pattern.fullmatch(it)), None)
    if wrong is not None:
        return f"{shown(wrong)} is no whole number"
    pieces = sum(it.fields[0] == "piece" for it in above)
    return f"the file has {pieces} pieces" if word == "end" else "a number here is at least 1"


def unknown_name(record, above):
    """Which name isn't in `agents` or `objects`."""
    for place, word in ((2, "agents"), (3, "objects")):
        name, known = cell(record, place), names_of(above, word)
        if name not in known and (place == 2 or record.fields[0] != "row"):
            return f"the record `{word}` doesn't have {shown(name)}" + near(name, dict.fromkeys(known))
    return None


def weights(record, above):
    """What the weights add up to, and the denominator."""
    pieces = [it for it in [*above, record] if it.fields[0] == "piece"]
    total = sum(int(cell(it, 3)) for it in pieces if COUNT.fullmatch(cell(it, 3)))
    due = next((cell(it, 2) for it in above if it.fields[0] == "denominator"), "missing")
    return f"the weights up to here add up to {total}, and the denominator is {due}"


def over_limit(record):
    """The greatest number of the record."""
    numbers = [int(it) for it in record.fields[1:] if SIGNED.fullmatch(it)]
    return f"the greatest number here is {max(numbers):,}" if numbers else f"it has {len(record.fields) - 1} names"


def bad_name(record):
    """Which name isn't lawful, stands twice, or stands after `none`."""
    listed = record.fields[1:]
    for at, name in enumerate(listed):
        if names.fault(name):
            return f"name {at + 1} is {shown(name)}: {names.fault(name)}"
        if name in listed[:at]:
            return f"{shown(name)} stands twice"
        if "none" in listed[:at]:
            return f"{shown(name)} stands after `none`"
    return None
