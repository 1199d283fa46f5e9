"""What bin/package does: one archive with the built program, documents, examples, scripts and their sums."""

import gzip
import hashlib
import io
import os
import subprocess
import tarfile

from office.documents import TOP
from office.telling import say as write
from office.whole import Unwritable, write_whole

USAGE, NO_PROGRAM, DEVICE = 2, 3, 4
FOLDER = "lottery"
PARTS = ("README.md", "bin", "docs", "examples")
# The first of January 2020: a time that is always the same.
TIME = 1_577_836_800


class Stop(Exception):
    """Why no archive is written, with the status."""

    def __init__(self, status, why):
        super().__init__(why)
        self.status = status


def program():
    """The path of the program that bin/lottery runs."""
    packed = os.path.join(TOP, "program", "lottery")
    built = os.path.join(TOP, "crates", "lottery", "out", "lottery")
    return os.environ.get("LOTTERY_PROGRAM") or (packed if os.path.exists(packed) else built)


def try_program():
    """Runs bin/lottery on the first example, which builds the program where it isn't built."""
    first = os.path.join(TOP, "examples", "first")
    words = [os.path.join(TOP, "bin", "lottery"), "pick", os.path.join(first, "lottery.csv"), "1"]
    ran = subprocess.run(words, stdin=subprocess.DEVNULL, stdout=subprocess.PIPE, check=False)
    with open(os.path.join(first, "pick-1.csv"), "rb") as file:
        if ran.returncode or ran.stdout != file.read():
            raise Stop(NO_PROGRAM, f"no program to pack: bin/lottery ended with {ran.returncode} on an example")


def is_packed(name):
    """Whether a file or folder of this name is a part of the package."""
    return not name.startswith(".") and not name.endswith(("~", ".pyc")) and name != "__pycache__"


def files():
    """The files of the package by their names in it, each with its path here."""
    found = {"program/lottery": program()}
    for part in PARTS:
        path = os.path.join(TOP, part)
        if os.path.isfile(path):
            found[part] = path
        for at, folders, names in os.walk(path):
            folders[:] = filter(is_packed, folders)
            for name in filter(is_packed, names):
                found[os.path.relpath(os.path.join(at, name), TOP)] = os.path.join(at, name)
    return found


def entry(name, data, mode):
    """The head of a file in the archive, with an owner and a time that are always the same."""
    found = tarfile.TarInfo(f"{FOLDER}/{name}")
    found.size, found.mode, found.mtime = len(data), mode, TIME
    return found


def archive():
    """The bytes of the archive: its files sorted, and last the sums of all."""
    held, sums = io.BytesIO(), []
    with tarfile.open(fileobj=held, mode="w", format=tarfile.USTAR_FORMAT) as made:
        for name, path in sorted(files().items()):
            with open(path, "rb") as file:
                data = file.read()
            sums.append(f"{hashlib.sha256(data).hexdigest()}  {name}\n")
            made.addfile(entry(name, data, 0o755 if os.access(path, os.X_OK) else 0o644), io.BytesIO(data))
        data = "".join(sums).encode()
        made.addfile(entry("SHA256SUMS", data, 0o644), io.BytesIO(data))
    packed = io.BytesIO()
    with gzip.GzipFile(filename="", fileobj=packed, mode="wb", compresslevel=9, mtime=0) as file:
        file.write(held.getvalue())
    return packed.getvalue()


def main(words):
    """Writes the archive whole, and says its sum; returns the status."""
    try:
        if len(words) != 1 or words[0].startswith("-"):
            raise Stop(USAGE, "the word is the name of the archive that is to be written, as lottery.tar.gz")
        try_program()
        data = archive()
        write_whole(words[0], data)
    except Stop as error:
        return say(str(error), error.status)
    except (OSError, Unwritable) as error:
        return say(str(error), DEVICE)
    print(f"{hashlib.sha256(data).hexdigest()}  {words[0]}")
    return 0


def say(text, status):
    """Writes a line to standard error and gives the status."""
    write(f"package: {text}")
    return status
