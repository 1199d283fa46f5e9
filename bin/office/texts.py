"""The bytes of a file as text: in which encoding they are, and what parts the fields."""

import codecs
import os
import re
from dataclasses import dataclass

MOST_BYTES = 67_108_864
FIRST_LINE = re.compile(r"([^\r\n]*)(?:\r\n|\r|\n|\Z)")
SEPARATORS = {",": "commas", ";": "semicolons", "\t": "tabs"}
NAMES = {
    "utf-8": "UTF-8",
    "utf-8-sig": "UTF-8 with a mark at its head",
    "utf-16-le": "UTF-16",
    "utf-16-be": "UTF-16",
    "cp1252": "Windows-1252",
}


class Unreadable(Exception):
    """A file that can't be read as text, with the reason."""


@dataclass(frozen=True)
class Text:
    """A file's text without the mark at its head, and the encoding that it was read by."""

    text: str
    encoding: str


def read_bytes(path):
    """The bytes of a file, or Unreadable where it is no file, can't be read, or is longer than the program reads."""
    try:
        if os.path.isfile(path) and os.path.getsize(path) > MOST_BYTES:
            raise Unreadable(f"it has more than {MOST_BYTES:,} bytes")
        with open(path, "rb") as file:
            return file.read()
    except OSError as error:
        raise Unreadable(error.strerror or "it can't be read") from error


def encoding_of(data):
    """The encoding of the bytes by their mark, by zeros between letters, or by whether they are UTF-8."""
    if data.startswith(codecs.BOM_UTF8):
        return "utf-8-sig"
    if data.startswith(codecs.BOM_UTF16_LE):
        return "utf-16-le"
    if data.startswith(codecs.BOM_UTF16_BE):
        return "utf-16-be"
    head = data[:400]
    if len(head) > 1 and head[1::2].count(0) * 2 > len(head[1::2]):
        return "utf-16-le"
    if len(head) > 1 and head[::2].count(0) * 2 > len(head[::2]):
        return "utf-16-be"
    try:
        data.decode("utf-8")
        return "utf-8"
    except UnicodeDecodeError:
        return "cp1252"


def decode(data, encoding=None):
    """The text of the bytes. A byte that the encoding lacks becomes a lone surrogate, which no name may hold."""
    encoding = encoding or encoding_of(data)
    if encoding.startswith("utf-16"):
        text = data.decode(encoding, errors="replace")
    else:
        text = data.decode("utf-8" if encoding == "utf-8-sig" else encoding, errors="surrogateescape")
    return Text(text.removeprefix("\ufeff"), encoding)


def as_program(data):
    """The text that the program sees: UTF-8, of which it leaves off two marks at the head."""
    text = data.decode("utf-8", errors="surrogateescape")
    return text.removeprefix("\ufeff").removeprefix("\ufeff")


def separator_line(text):
    """The separator that a first line such as `sep=;` states, or None."""
    first = FIRST_LINE.match(text)[1].strip().strip('"')
    if not first.lower().startswith("sep="):
        return None
    return first[4:5] or "\t"


def without_first_line(text):
    """The text below its first line."""
    return text[FIRST_LINE.match(text).end() :]
