"""Files that are written whole: beside their place, and then moved there, so that nobody meets half of one."""

import os
import tempfile


class Unwritable(Exception):
    """A file that can't be written, with the reason."""


def is_same(one, other):
    """Whether two names are of one file."""
    try:
        return os.path.samefile(one, other)
    except OSError:
        return os.path.realpath(one) == os.path.realpath(other)


def write_whole(path, data, mode=0o666, when=None):
    """Writes a file beside its place and moves it there; where that fails, what stood there stays."""
    beside = None
    try:
        handle, beside = tempfile.mkstemp(prefix=".new-", dir=os.path.dirname(path) or ".")
        with os.fdopen(handle, "wb") as file:
            file.write(data)
            file.flush()
            os.fsync(file.fileno())
        umask = os.umask(0)
        os.umask(umask)
        os.chmod(beside, mode & ~umask)
        if when is not None:
            os.utime(beside, (when, when))
        os.replace(beside, path)
    except OSError as error:
        if beside and os.path.exists(beside):
            os.remove(beside)
        raise Unwritable(error.strerror or "it can't be written") from error
