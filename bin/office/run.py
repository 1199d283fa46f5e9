"""A run of the program: its command, its files with what each is to hold, and what they state."""

import os
import subprocess
import sys
from functools import cached_property

from office import documents, texts
from office.records import records
from office.stated import stated

PROGRAM = os.path.join(documents.TOP, "bin", "lottery")


class Run:
    """The words of a run, read by the table of commands. Where they fit no command, it has no files."""

    def __init__(self, words, page):
        self.words, self.page = words, page
        forms = {it[0]: it[1:] for it in documents.commands(page)}
        self.command = words[0] if words and words[0] in forms else None
        self.form = forms.get(self.command, [])
        fits = self.command is not None and len(self.form) == len(words) - 1
        self.files = [it for it in zip(words[1:], self.form) if it[1] in documents.FILES] if fits else []
        self.contents = [self._bytes(path) for path, _ in self.files]

    @staticmethod
    def _bytes(path):
        """The bytes of a file. A pipe can be read once, and that is the program's."""
        if not os.path.isfile(path):
            return None
        try:
            return texts.read_bytes(path)
        except texts.Unreadable:
            return None

    def path(self, number):
        """The name of a file, counted from 1."""
        return self.files[number - 1][0] if 0 < number <= len(self.files) else f"file {number}"

    @cached_property
    def records(self):
        """The records of each file, as the program counts them."""
        return [records(texts.as_program(it)) if it else [] for it in self.contents]

    def number_of(self, *roles):
        """The number of the file of one of these roles."""
        return next((at for at, (_, role) in enumerate(self.files, 1) if role in roles), 0)

    def records_of(self, *roles):
        number = self.number_of(*roles)
        return self.records[number - 1] if number else []

    @cached_property
    def known(self):
        """What lists or a matrix, and quotas, state."""
        return stated(self.records_of("PREFS", "MATRIX"), self.records_of("QUOTAS"), self.number_of("MATRIX") > 0)


def go(words):
    """Runs the program, hands its lines on standard error on as they come, and returns its status and last line."""
    last = ""
    # (a pipe that a shell names by a number is handed on)
    with subprocess.Popen([PROGRAM, *words], stderr=subprocess.PIPE, close_fds=False) as program:
        for line in program.stderr:
            sys.stderr.buffer.write(line)
            sys.stderr.flush()
            last = line.decode("utf-8", errors="replace").rstrip("\n")
    status = program.returncode
    return (status if status >= 0 else 128 - status), last


def place(path, record):
    """Where a record stands."""
    return f"{path}, line {record.line} (record {record.number}): {record.shown()}"
