"""Names: what is wrong with one, which known one is nearest, and which two look alike."""

import difflib
import re
import unicodedata

# Blanks that a spreadsheet hands on and no eye sees: all that Unicode counts as space, and marks without width.
UNSEEN = "\u200b\u200c\u200d\u2060\ufeff"
MOST_SHOWN = 80
SPACES = re.compile(rf"[\s{UNSEEN}]+")


def stripped(name):
    """The name without blanks at its ends."""
    return re.sub(rf"^[\s{UNSEEN}]+|[\s{UNSEEN}]+$", "", name)


def key(name):
    """What two names have in common that differ only in blanks, or in how their accents are made."""
    return unicodedata.normalize("NFC", SPACES.sub(" ", stripped(name)))


def shown(name):
    """A name in marks, in which blanks that can't be seen stand as escapes. A long one is cut."""
    cut = name if len(name) <= MOST_SHOWN else name[: MOST_SHOWN - 3] + "..."
    return "`" + "".join(visible(mark) for mark in cut) + "`"


def visible(mark):
    """A mark, or its escape where it can't be seen by itself; a byte that isn't UTF-8 stays as it is."""
    is_seen = mark.isprintable() and not unicodedata.combining(mark) or "\udc80" <= mark <= "\udcff"
    return mark if is_seen else ascii(mark)[1:-1]


def difference(one, other):
    """In what two names of one key differ."""
    if unicodedata.normalize("NFC", one) == unicodedata.normalize("NFC", other):
        return "the form of an accent"
    return "blanks"


def fault(name):
    """Why a name isn't lawful, or None where it is."""
    if not name:
        return "it is empty"
    if name == "*":
        return "it is `*`, which stands for all"
    if any("\udc80" <= mark <= "\udcff" for mark in name):
        return "it isn't UTF-8"
    if len(name.encode("utf-8", "surrogatepass")) > 64:
        return f"it has {len(name.encode('utf-8', 'surrogatepass'))} bytes, where 64 is the most"
    if "\n" in name or "\r" in name:
        return "it has a line break"
    if any(ord(mark) < 32 or 127 <= ord(mark) < 160 for mark in name):
        return "it has a control character"
    return None


def nearest(name, known):
    """The known name that is nearest to this one, or None where none is near."""
    for other in known:
        if key(other) == key(name) or key(other).casefold() == key(name).casefold():
            return other
    found = difflib.get_close_matches(name, known, n=1, cutoff=0.6)
    return found[0] if found else None
