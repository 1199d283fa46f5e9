#!/usr/bin/env python3
"""shown.py [--commands] DOCUMENT: runs in the current folder what the document shows, and ends with 1 where something
else is written or shown. With --commands it looks at commands alone, the first two below: not all that a document
names goes along with a package.

- A fenced block whose first line begins with `$ ` has commands. Below each stands what it writes; a line `...` stands
  for any lines.
- A command that is set in by four blanks, as `    bin/lottery ..`, must end with 0.
- Any other fenced block below a line that ends with the name of a file in backticks and a colon shows parts of it.
- A path that the document names must be there: in the current folder, beside the document, or in crates/ (a module of
  specs also without its ending).
"""

import os
import re
import subprocess
import sys
import textwrap

FENCED = re.compile(r"^( *)```\w*\n(.*?)^ *```$", re.MULTILINE | re.DOTALL)
ANY_LINES = "(?:.*\n)*"
FOLDERS = r"(?:docs|examples|bin|bench|\.ci)"
PATH = re.compile(rf"(?<![\w./-]){FOLDERS}/[\w./-]*\w/?|\b[a-z_0-9]+/(?:specs|src|proofs)/[\w./-]*\w")
# A name that stands for any, as in `src/NAME.rt`.
PLACEHOLDER = re.compile(r"NAME|Name\b|\.\.$|/[A-Z]+$")


class Document:
    """A document: its text, the folder that it lies in, and what was found wrong."""

    def __init__(self, path):
        with open(path, encoding="utf-8") as file:
            self.text = file.read()
        self.folder = os.path.dirname(path)
        self.wrong = 0

    def blocks(self):
        """Each fenced block with the line of text above it."""
        for found in FENCED.finditer(self.text):
            above = self.text[: found.start()].rstrip().rsplit("\n", 1)[-1]
            yield above, textwrap.dedent(found[2])

    def tell(self, what):
        print(what, file=sys.stderr)
        self.wrong = 1

    def place(self, path):
        """Where a named file lies, or None."""
        beside, inside = os.path.join(self.folder, path), os.path.join("crates", path)
        return next((place for place in (path, beside, inside, f"{inside}.antt") if os.path.exists(place)), None)


def commands(block):
    """Each command of a block with the lines below it."""
    for part in re.split(r"^\$ ", block, flags=re.MULTILINE)[1:]:
        command, _, due = part.partition("\n")
        yield command, due


def pattern_of(shown):
    return ANY_LINES.join(re.escape(part) for part in re.split(r"^\.\.\.\n", shown, flags=re.MULTILINE))


def run(command):
    streams = {"stdout": subprocess.PIPE, "stderr": subprocess.STDOUT}
    done = subprocess.run(["bash", "-c", command], **streams, timeout=60, check=False)
    return done.returncode, done.stdout.decode()


def check_commands(document):
    for _, block in document.blocks():
        if not block.startswith("$ "):
            continue
        for command, due in commands(block):
            _, said = run(command)
            if not re.fullmatch(pattern_of(due), said):
                document.tell(f"$ {command}\n{said}")


def check_lone_commands(document):
    """Commands without a text below them; and no `$ ` stands where it isn't run."""
    for command in re.findall(r"^    (bin/.+)$", document.text, re.MULTILINE):
        status, said = run(command)
        if status != 0:
            document.tell(f"{command}: status {status}\n{said}")
    run_here = sum(len(list(commands(block))) for _, block in document.blocks() if block.startswith("$ "))
    if len(re.findall(r"^ *\$ ", document.text, re.MULTILINE)) != run_here:
        document.tell("a command behind `$ ` stands where it isn't run: a block of commands begins with one")


def check_excerpts(document):
    for above, block in document.blocks():
        named = re.search(r"`([\w./-]+)`:$", above)
        if named is None or block.startswith("$ "):
            continue
        place = document.place(named[1])
        if place is None:
            document.tell(f"{named[1]} isn't there")
            continue
        with open(place, encoding="utf-8") as file:
            if not re.fullmatch(f"{ANY_LINES}{pattern_of(block)}{ANY_LINES}", file.read()):
                document.tell(f"{named[1]} has other lines than are shown:\n{block}")


def check_paths(document):
    prose = FENCED.sub("", document.text)
    for path in sorted(set(PATH.findall(prose))):
        if not PLACEHOLDER.search(path) and document.place(path) is None:
            document.tell(f"{path} is named and isn't there")


def main():
    *options, path = sys.argv[1:]
    if options not in ([], ["--commands"]):
        sys.exit("shown.py [--commands] DOCUMENT")
    document = Document(path)
    check_commands(document)
    check_lone_commands(document)
    if not options:
        check_excerpts(document)
        check_paths(document)
    sys.exit(document.wrong)


main()
