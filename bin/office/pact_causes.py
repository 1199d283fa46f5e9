"""The likeliest cause of a fault of a pact: which field it is, who is missing, or what a commitment was made of."""

import hashlib
import re
import unicodedata

from office import names
from office.input_causes import near, not_utf8
from office.names import nearest, shown
from office.stated import cell

LENGTHS = {"pact": 2, "commit": 3, "reveal": 3}
DIGITS = "0123456789abcdef"
HEX = re.compile(r"[0-9a-fA-F]{64}")


def likely(kind, record, records):
    """What is likely wrong with the record, in words, or None."""
    above = [it for it in records if it.fields and (record is None or it.number < record.number)]
    if kind == "Missing":
        return missing(above)
    if record is None or not record.fields:
        return None
    searches = {
        "NotUtf8": lambda: not_utf8(record),
        "WrongOrder": lambda: wrong_order(record, above),
        "WrongLength": lambda: wrong_length(record),
        "BadName": lambda: bad_name(record),
        "RepeatedName": lambda: repeated(record, above),
        "BadHex": lambda: bad_hex(record),
        "UnknownName": lambda: unknown_name(record, above),
        "RepeatedReveal": lambda: repeated(record, above),
        "Mismatch": lambda: mismatch(record, above),
        "OverLimit": lambda: f"{len(named(above, 'commit')):,} `commit` records stand above it",
        "UnknownVersion": lambda: f"the version is {shown(cell(record, 2))}",
    }
    return searches[kind]() if kind in searches else None


def named(records, word):
    """The records of this word by their names."""
    return {cell(it, 2): it for it in records if it.fields[0] == word}


def missing(above):
    """Who hasn't revealed, or which records aren't there at all."""
    if not above:
        return "the file has no row with anything in it"
    commits, reveals = named(above, "commit"), named(above, "reveal")
    silent = [shown(it) for it in commits if it not in reveals]
    if not silent:
        return "it has no `commit` record"
    more = f" and {len(silent) - 5:,} more" if len(silent) > 5 else ""
    return f"no `reveal` record has {', '.join(silent[:5])}{more}"


def wrong_order(record, above):
    """Why a record may not stand where it does."""
    word = record.fields[0]
    if word not in LENGTHS:
        return unknown_word(word)
    if not above:
        return f"a pact begins with `pact,1`, and this file with {shown(record.shown(40))}"
    if word == "reveal":
        return "no `commit` record stands above it"
    earlier = next(it for it in above if word == "pact" or it.fields[0] == "reveal")
    return f"{shown(earlier.shown(40))} stands above it, on line {earlier.line}"


def unknown_word(word):
    """A first field that is no word of a pact, and the word that is near."""
    plain = names.stripped(word).lower()
    if plain in LENGTHS:
        return f"the first field is {shown(word)}; blanks and capitals count"
    other = nearest(plain, LENGTHS)
    return f"the first field is {shown(word)}" + (f"; `{other}` is near" if other else "")


def wrong_length(record):
    """How many fields there are, and how many are due."""
    due = LENGTHS[record.fields[0]]
    more = "; a name with a comma may lack its quotes" if len(record.fields) > due == 3 else ""
    return f"it has {len(record.fields)} fields, and a record `{record.fields[0]}` has {due}{more}"


def bad_name(record):
    """Why a name isn't lawful."""
    return f"the name is {shown(cell(record, 2))}: {names.fault(cell(record, 2))}"


def repeated(record, above):
    """Where the name stands already, and whether with the same digits."""
    word, name = record.fields[0], cell(record, 2)
    earlier = named(above, word).get(name)
    if earlier is None:
        return None
    same = "the same" if cell(earlier, 3).lower() == cell(record, 3).lower() else "other"
    return f"a `{word}` record of {shown(name)} stands on line {earlier.line} already, with {same} digits"


def bad_hex(record):
    """How many characters there are, or which is no hex digit."""
    text = cell(record, 3)
    wrong = next((it for it in text if it.lower() not in DIGITS), None)
    if wrong is not None:
        return f"{shown(wrong)} is no hex digit: they are 0 to 9 and a to f"
    return f"the third field has {len(text)} digits"


def unknown_name(record, above):
    """Which name hasn't committed, and the one that is nearest."""
    name = cell(record, 2)
    return f"no `commit` record has {shown(name)}" + near(name, named(above, "commit"))


def commitment(name, contribution):
    """The commitment of a name and a contribution: its digits."""
    return hashlib.sha256(name.encode("utf-8", "surrogateescape") + b"\0" + contribution).hexdigest()


def mismatch(record, above):
    """What the commitment was made of in place of this name and contribution, as far as that can be found."""
    name, digits, commits = cell(record, 2), cell(record, 3).lower(), named(above, "commit")
    if name not in commits or not HEX.fullmatch(digits):
        return None
    due, line = cell(commits[name], 3).lower(), commits[name].line
    found = other_digits(name, digits, due) or other_name(name, digits, due, commits) or other_way(name, digits, due)
    return found or (f"the commitment of this name and contribution is {commitment(name, bytes.fromhex(digits))}, "
                     f"and that on line {line} is {due}")


def other_digits(name, digits, due):
    """The commitment in place of the contribution, or one digit or two neighbours mistyped."""
    if digits == due:
        return "it repeats the commitment; what is due is the contribution from which that was made"
    for at, digit in enumerate(digits):
        for other in DIGITS:
            if commitment(name, bytes.fromhex(digits[:at] + other + digits[at + 1 :])) == due:
                return f"digit {at + 1} is `{digit}`, and with `{other}` in its place the commitment would be kept"
    for at in range(len(digits) - 1):
        pair = digits[at : at + 2]
        if commitment(name, bytes.fromhex(digits[:at] + pair[::-1] + digits[at + 2 :])) == due:
            return f"digits {at + 1} and {at + 2} are `{pair}`, and with `{pair[::-1]}` the commitment would be kept"
    return None


def other_name(name, digits, due, commits):
    """The contribution of another name, or a commitment that was made for another one."""
    contribution = bytes.fromhex(digits)
    owner = next((it for it in commits if commitment(it, contribution) == cell(commits[it], 3).lower()), None)
    if owner is not None:
        return f"it is the contribution to which {shown(owner)} committed, on line {commits[owner].line}"
    plain = names.stripped(name)
    forms = [plain, plain + " ", " " + plain, plain.lower(), plain.upper(), plain.title()]
    forms += [unicodedata.normalize(form, plain) for form in ("NFC", "NFD")]
    meant = next((it for it in [*commits, *forms] if commitment(it, contribution) == due), None)
    if meant is None:
        return None
    how = f"; the two differ only in {names.difference(name, meant)}" if names.key(meant) == names.key(name) else ""
    return f"the commitment was made for the name {shown(meant)} and not for {shown(name)}{how}"


def other_way(name, digits, due):
    """A commitment that was made by another rule than that of docs/FORMATS.md."""
    head, contribution = name.encode("utf-8", "surrogateescape"), bytes.fromhex(digits)
    ways = {
        "of the contribution alone, without the name": contribution,
        "without the byte 0 between the name and the contribution": head + contribution,
        "of the digits as a text, and not of the 32 bytes that they stand for": head + b"\0" + digits.encode(),
        "of the digits as a text, without the name": digits.encode(),
    }
    found = next((it for it, data in ways.items() if hashlib.sha256(data).hexdigest() == due), None)
    return found and f"the commitment was made {found}; `pact-commit` makes it as it is due"
