#!/usr/bin/env python3
"""cases.py PROGRAM FOLDER..: makes the files of each bad case of the folders' tables and runs bin/explain on it.

It ends with 1 where the status, the program's line or a hint isn't the one that is due, or where a kind, check or
cause of docs/COMMANDS.md has no case. FOLDER/README.md says how a case looks.
"""

import os
import re
import subprocess
import sys
import tempfile
from concurrent.futures import ThreadPoolExecutor
from dataclasses import dataclass, field, replace

sys.dont_write_bytecode = True
TOP = os.path.dirname(os.path.dirname(os.path.realpath(__file__)))
sys.path.insert(0, os.path.join(TOP, "bin"))

from office import documents

# The tables of kinds, each by the word with which its lines begin.
HEADINGS = {"input": documents.INPUT_KINDS, "lottery": documents.LOTTERY_KINDS, "pact": documents.PACT_KINDS}
ESCAPES = {"t": b"\t", "r": b"\r", "n": b"\n", "s": b" "}


@dataclass
class Case:
    """A case: its name, the words, the status and line that are due, hints, files, and what is special of the run."""

    name: str
    words: list = field(default_factory=list)
    status: int = 0
    line: str = ""
    before: list = field(default_factory=list)
    behind: list = field(default_factory=list)
    files: dict = field(default_factory=dict)
    special: list = field(default_factory=list)


def cases(path):
    """The cases of a table. What stands above the first is the files of all."""
    with open(path, encoding="utf-8") as file:
        head, *parts = re.split(r"^= ", "\n" + file.read(), flags=re.MULTILINE)
    common = files_of(head.splitlines())
    for part in parts:
        lines = part.rstrip("\n").splitlines()
        at = next((at for at, line in enumerate(lines) if line.startswith("--- ")), len(lines))
        case = Case(lines[0], files={**common, **files_of(lines[at:])})
        for line in lines[1:at]:
            take(case, line)
        yield case


def take(case, line):
    """Takes a line of a case that isn't in a file."""
    mark, _, rest = line.partition(" ")
    if mark == "$":
        case.words = rest.split()
    elif mark in "<>!":
        {"<": case.before, ">": case.behind, "!": case.special}[mark].append(rest)
    elif mark:
        case.status, case.line = int(mark), rest


def files_of(lines):
    """The files of a part: how each is made, and its lines."""
    found, name = {}, None
    for line in lines:
        if line.startswith("--- "):
            name, _, how = line[4:].partition(" ")
            found[name] = (how, [])
        elif name:
            found[name][1].append(line)
    return found


def unescaped(line):
    """The bytes of a line."""
    parts = re.split(rb"\\(x[0-9a-f]{2}|[trns])", line.encode())
    for at in range(1, len(parts), 2):
        code = parts[at].decode()
        parts[at] = ESCAPES[code] if code in ESCAPES else bytes([int(code[1:], 16)])
    return b"".join(parts)


def repeated(line):
    """The lines that a line of a file stands for."""
    found = re.fullmatch(r"@(\+?)(\d+)\.\.(\d+) (.*)", line)
    if not found:
        return [line]
    numbers = [str(it) for it in range(int(found[2]), int(found[3]) + 1)]
    if found[1]:
        head, _, part = found[4].partition(";")
        return [head + "".join(part.replace("#", it) for it in numbers)]
    return [found[4].replace("#", it) for it in numbers]


def content(how, lines):
    """The bytes of a file."""
    while lines and not lines[-1]:
        lines = lines[:-1]
    word, _, rest = how.partition(" ")
    if word == "of":
        return bytes(int(rest.split()[0]))
    if word == "from":
        with open(os.path.join(TOP, "examples", rest), "rb") as file:
            data = file.read()
        edits = dict(re.split(r" ->(?: |$)", line, maxsplit=1) for line in lines)
        edits = {old.encode() + b"\n": unescaped(new) + b"\n" if new else b"" for old, new in edits.items()}
        assert all(old in data.splitlines(keepends=True) for old in edits), edits
        return b"".join(edits.get(line, line) for line in data.splitlines(keepends=True))
    data = b"".join(unescaped(it) + b"\n" for line in lines for it in repeated(line))
    return ("\ufeff" + data.decode()).encode(rest) if word == "as" else data


def script(path, text):
    """A script at this path, by which another program is run in the true one's place."""
    with open(path, "w", encoding="utf-8") as file:
        file.write(f"#!/bin/bash\n{text}\n")
    os.chmod(path, 0o755)
    return path


def run(case, program, folder):
    """Runs a case in a folder of its own, and returns what is wrong with it."""
    for name, (how, lines) in case.files.items():
        with open(os.path.join(folder, name), "wb") as file:
            file.write(content(how, lines))
    output = os.devnull
    for word, _, rest in (it.partition(" ") for it in case.special):
        if word == "full":
            output = "/dev/full"
        elif word == "folder":
            os.mkdir(os.path.join(folder, rest))
        elif word == "memory":
            program = script(os.path.join(folder, "program"), f'ulimit -v 65536; exec {program} "$@"')
        elif word == "program":
            status, _, line = rest.partition(" ")
            program = script(os.path.join(folder, "program"), f"echo '{line}' >&2; exit {status}")
    before = {it: os.stat(os.path.join(folder, it)).st_mtime_ns for it in os.listdir(folder)}
    words = [sys.executable, "-S", os.path.join(TOP, "bin", "explain"), *case.words]
    environment = {**os.environ, "LOTTERY_PROGRAM": program}
    with open(output, "wb") as out:
        ran = subprocess.run(
            words, cwd=folder, stdin=subprocess.DEVNULL, stdout=out, stderr=subprocess.PIPE, env=environment,
            timeout=120, check=False)
    after = {it: os.stat(os.path.join(folder, it)).st_mtime_ns for it in os.listdir(folder)}
    return ["a file was changed"] * (before != after) + wrong(case, ran.returncode, ran.stderr.decode())


def wrong(case, status, said):
    """What of an answer isn't as it is due."""
    found = [f"status {status} in place of {case.status}"] if status != case.status else []
    lines = said.split("\n")
    at = lines.index(case.line) if case.line and case.line in lines else len(lines)
    if case.line and case.line not in lines:
        found.append(f"the line isn't '{case.line}'")
    parts = ("\n".join(lines[:at]), case.before), ("\n".join(lines[at:]), case.behind)
    found += [f"no hint '{hint}'" for text, hints in parts for hint in hints if hint not in text]
    if case.line and words_due(case) not in parts[1][0]:
        found.append("it hasn't the words of docs/COMMANDS.md")
    if not case.before and parts[0][0].strip():
        found.append("it names a mistake of an export, and none is due")
    return found + (["it said:\n" + said] if found else [])


def words_due(case):
    """The words of docs/COMMANDS.md for the line of a case: what to do, and of a failed check where it fails."""
    page = documents.page()
    cause = documents.cause_of(page, case.line, case.words[0] if case.words else "")
    if cause.name == "AuditFailed":
        return documents.checks(page)[int(cause.values["numbers"].split()[0])].wrong
    if cause.name.lower() in HEADINGS:
        return documents.kinds(page, HEADINGS[cause.name.lower()])[int(cause.values["K"])].remedy
    return cause.remedy


def uncovered(found):
    """The kinds, checks and causes of docs/COMMANDS.md that no case has."""
    page = documents.page()
    lines = [case.line for case in found]
    due = {}
    for word, heading in HEADINGS.items():
        due |= {f"{word}: kind {it}": rf"{word}: .* kind {it}" for it in documents.kinds(page, heading)}
    due |= {f"check {it}": rf"audit failed: {it}( .*)?" for it in documents.checks(page)}
    causes = [documents.cause_of(page, case.line, case.words[0] if case.words else "") for case in found if case.line]
    named = {(it.name, it.remedy) for it in causes if it}
    missing = [what for what, pattern in due.items() if not any(re.fullmatch(pattern, line) for line in lines)]
    rows = documents.tables(page, "How a run ends")
    return missing + [cells[0] for cells in rows if cells[0] != "Done" and (cells[0], cells[4]) not in named]


def main():
    program, *folders = sys.argv[1:]
    tables = [os.path.join(it, name) for it in folders for name in sorted(os.listdir(it)) if name.endswith(".txt")]
    found = [replace(case, name=f"{os.path.basename(it)}: {case.name}") for it in tables for case in cases(it)]
    bad = [f"no case has {it}" for it in uncovered(found)]
    with tempfile.TemporaryDirectory() as room, ThreadPoolExecutor(4) as pool:
        rooms = [os.path.join(room, str(at)) for at in range(len(found))]
        for it in rooms:
            os.mkdir(it)
        for case, answer in zip(found, pool.map(lambda it: run(it[0], program, it[1]), zip(found, rooms))):
            bad += [f"{case.name}: {it}" for it in answer]
    for it in bad:
        print(it, file=sys.stderr)
    sys.exit(1 if bad else 0)


main()
