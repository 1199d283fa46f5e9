"""Lines on standard error, in UTF-8; a byte that isn't UTF-8 is shown as `\\xNN`."""

import re
import sys


def plain(text):
    """The text with escapes for bytes that aren't UTF-8."""
    return re.sub("[\udc80-\udcff]", lambda it: f"\\x{ord(it[0]) - 0xDC00:02x}", text)


def say(text):
    """Writes a line at once."""
    sys.stderr.buffer.write(f"{plain(text)}\n".encode("utf-8", errors="backslashreplace"))
    sys.stderr.flush()
