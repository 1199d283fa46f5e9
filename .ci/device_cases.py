#!/usr/bin/env python3
"""device_cases.py PROGRAM: runs each command of the program over devices that fail, with files of its own
in the current folder.

Standard output is a full device, a file that may have no more than some of the text's bytes, or a pipe that closes
after so many. A file is absent, a folder, without an end, given through a pipe in two parts, or grows or shrinks
while it is read. A run ends with the status and the line that docs/COMMANDS.md has for it. It says how many runs
there were, and ends with 1 where one had another end.
"""

import contextlib
import fcntl
import os
import resource
import signal
import subprocess
import sys
import termios
import time
from dataclasses import dataclass, field

PROGRAM = sys.argv[1]
EXAMPLES = os.path.join(os.path.dirname(os.path.dirname(os.path.realpath(__file__))), "examples")
SEED = "0" * 64
# No run takes so many seconds, unless it doesn't end.
MOST = 60
# The least that a pipe can hold.
PIPE = 4096
FILE_LIMIT = 67108864
# How often a run is begun, until it is caught while it reads.
TRIES = 50
COMMANDS = (
    "solve school/lists.csv school/quotas.csv",
    "solve-guarded school/lists.csv school/quotas.csv",
    "decompose committee/shares.csv committee/quotas.csv",
    "decompose-free committee/shares.csv committee/quotas.csv",
    "audit school/lists.csv school/quotas.csv school/lottery.csv",
    "audit-guarded shifts/lists.csv shifts/quotas.csv shifts/lottery.csv",
    "audit-matrix committee/shares.csv committee/quotas.csv committee/lottery.csv",
    "envy shifts/lists.csv shifts/quotas.csv shifts/lottery.csv",
    "pick school/lottery.csv 1",
    f"draw committee/lottery.csv {SEED}",
    "report school/lottery.csv",
    "sets school/lists.csv school/quotas.csv",
    "sides committee/shares.csv committee/quotas.csv",
    "table school/lists.csv school/quotas.csv",
    f"generate {SEED} 3 2",
    f"pact-commit Town {SEED}",
    "pact-draw school/lottery.csv pact/pact.csv",
)
# For each reader of files a command, and the number of the file among those of the command.
READERS = (
    ("pick school/lottery.csv 1", 1),
    ("sets school/lists.csv school/quotas.csv", 1),
    ("sets school/lists.csv school/quotas.csv", 2),
    ("decompose committee/shares.csv committee/quotas.csv", 1),
    ("pact-draw school/lottery.csv pact/pact.csv", 2),
)
@dataclass(frozen=True)
class End:
    """How a run ended: its status, what stands on standard error, and what came of standard output."""

    status: int
    line: bytes
    text: bytes = b""

    def __str__(self):
        said = self.line.decode(errors="replace")
        return f"status {self.status}, {said!r} on standard error, {len(self.text)} bytes on standard output"


WRITE = (4, b"write\n")


@dataclass
class Seen:
    """How many runs there were, and what was wrong."""

    runs: int = 0
    wrong: list = field(default_factory=list)

    def need(self, case, holds, end):
        self.runs += 1
        if not holds:
            self.wrong.append(f"{case}: {end}")


def words_of(command):
    """The words of a command, its files by their whole names."""
    return [os.path.join(EXAMPLES, word) if "/" in word else word for word in command.split()]


def run(words, **how):
    """How a run ends with these words; without another place its standard output is kept."""
    how = {"stdin": subprocess.DEVNULL, "stdout": subprocess.PIPE, "stderr": subprocess.PIPE, **how}
    ran = subprocess.run([PROGRAM, *words], check=False, timeout=MOST, **how)
    return End(ran.returncode, ran.stderr or b"", ran.stdout or b"")


def begin(words, **how):
    """A run with these words that goes on beside this program."""
    return subprocess.Popen([PROGRAM, *words], stdin=subprocess.DEVNULL, stderr=subprocess.PIPE, **how)


def end_of(begun):
    """How a begun run ends."""
    try:
        text, line = begun.communicate(timeout=MOST)
    except subprocess.TimeoutExpired:
        begun.kill()
        raise
    return End(begun.returncode, line, text or b"")


def front_sizes(text):
    """None of the bytes of a text, one, half of them, and all but one, each once."""
    return sorted({0, min(1, len(text) - 1), len(text) // 2, len(text) - 1})


def into_file(words, size):
    """How a run ends whose standard output is a file that may have no more than so many bytes."""

    def limit():
        resource.setrlimit(resource.RLIMIT_FSIZE, (size, size))

    # Python ignores the signal that a file is too large, and where signals aren't restored its child does too.
    with open("limited", "wb") as file:
        end = run(words, stdout=file, preexec_fn=limit, restore_signals=False)
    with open("limited", "rb") as file:
        return End(end.status, end.line, file.read())


def read_exactly(source, size):
    """So many bytes of a pipe, or fewer where it ends before."""
    text = b""
    while len(text) < size and (part := os.read(source, size - len(text))):
        text += part
    return text


def into_pipe(words, size):
    """How a run ends whose standard output is a pipe that is closed after so many bytes: after 0 before it begins."""
    source, sink = os.pipe()
    fcntl.fcntl(sink, fcntl.F_SETPIPE_SZ, PIPE)
    if size == 0:
        os.close(source)
    text = b""
    with begin(words, stdout=sink) as begun:
        os.close(sink)
        if size:
            text = read_exactly(source, size)
            os.close(source)
        end = end_of(begun)
    return End(end.status, end.line, text)


def check_outputs(seen, command):
    """Standard output that is full, or that goes away."""
    words = words_of(command)
    whole = run(words)
    seen.need(command, (whole.status, whole.line) == (0, b"") and whole.text, whole)
    with open("/dev/full", "wb") as full:
        end = run(words, stdout=full)
        seen.need(f"{command} into a full device", (end.status, end.line) == WRITE, end)
        silent = run(words, stdout=full, stderr=full)
        seen.need(f"{command} into two full devices", silent.status == 4, silent)
    for size in front_sizes(whole.text):
        due = whole.text[:size]
        end = into_file(words, size)
        seen.need(f"{command} into a file of {size} bytes", end == End(*WRITE, due), end)
        end = into_pipe(words, size)
        # What a pipe still holds when it is closed was written.
        may_end = size > 0 and len(whole.text) - size <= PIPE
        holds = (end.status, end.line) == WRITE or may_end and (end.status, end.line) == (0, b"")
        seen.need(f"{command} into a pipe of {size} bytes", holds and end.text == due, end)


def with_file(command, number, name):
    """The words of a command with another file in the place of the one of this number."""
    words = words_of(command)
    places = [place for place, word in enumerate(command.split()) if "/" in word]
    words[places[number - 1]] = name
    return words


def check_inputs(seen, command):
    """Each file of a command that is absent, or a folder; and an absent one beside one without an end."""
    count = sum("/" in word for word in command.split())
    for number in range(1, count + 1):
        due = End(4, b"read: file %d\n" % number)
        for name in "absent", "folder":
            end = run(with_file(command, number, name))
            seen.need(f"{command} with {name} for file {number}", end == due, end)


def check_endless(seen):
    """A file without an end is read up to the limit."""
    for command, number in READERS:
        end = run(with_file(command, number, "/dev/zero"))
        seen.need(f"{command} with /dev/zero for file {number}", end == End(3, b"too long: file %d\n" % number), end)
    words = with_file("sets school/lists.csv school/quotas.csv", 1, "/dev/zero")
    end = run([*words[:2], "absent"])
    seen.need("an absent file beside one without an end", end == End(4, b"read: file 2\n"), end)


def wait_until_read(source):
    """Waits until nothing is left in a pipe."""
    for _ in range(MOST * 1000):
        left = fcntl.ioctl(source, termios.FIONREAD, b"\0\0\0\0")
        if int.from_bytes(left, sys.byteorder) == 0:
            return
        time.sleep(0.001)


def check_parts(seen):
    """A file that comes through a pipe in two parts, the second when the first was read."""
    command = "pick school/lottery.csv 1"
    whole = run(words_of(command))
    with open(os.path.join(EXAMPLES, "school/lottery.csv"), "rb") as file:
        text = file.read()
    source, sink = os.pipe()
    with begin(with_file(command, 1, f"/dev/fd/{source}"), stdout=subprocess.PIPE, pass_fds=[source]) as begun:
        half = len(text) // 2
        for part in text[:half], text[half:]:
            wait_until_read(source)
            os.write(sink, part)
        os.close(sink)
        os.close(source)
        end = end_of(begun)
    seen.need("a file in two parts", end == whole, end)


def place_in(process, path):
    """How far a process has read a file that it holds open, else 0."""
    with contextlib.suppress(OSError, ValueError, IndexError):
        for number in os.listdir(f"/proc/{process}/fd"):
            if os.readlink(f"/proc/{process}/fd/{number}") == path:
                with open(f"/proc/{process}/fdinfo/{number}", "rb") as file:
                    return int(file.readline().split()[1])
    return 0


def caught(process, path):
    """Stops a process while it reads a long file, and says whether it could."""
    while process.poll() is None:
        if place_in(process.pid, path):
            process.send_signal(signal.SIGSTOP)
            os.waitid(os.P_PID, process.pid, os.WSTOPPED | os.WEXITED | os.WNOWAIT)
            return 0 < place_in(process.pid, path) < FILE_LIMIT
    return False


def run_changed(size, changed):
    """How `pick` ends over a file of one size that gets another one while it is read, or None where it never was
    caught. The text has a fault in its first record."""
    path = os.path.realpath("changing")
    for _ in range(TRIES):
        with open(path, "wb") as file:
            file.write(b"pick\n")
            file.truncate(size)
        with begin(["pick", path, "1"], stdout=subprocess.PIPE) as begun:
            is_caught = caught(begun, path)
            if is_caught:
                os.truncate(path, changed)
            with contextlib.suppress(ProcessLookupError):
                begun.send_signal(signal.SIGCONT)
            end = end_of(begun)
        if is_caught:
            return end
    return None


def check_changes(seen):
    """A file that gets too long while it is read, and one that was too long."""
    unlawful = End(3, b"lottery: record 1 kind 2\n")
    too_long = End(3, b"too long: file 1\n")
    cases = (
        ("a file that grows", FILE_LIMIT, FILE_LIMIT + 1, too_long),
        ("a file that shrinks", FILE_LIMIT + 1, FILE_LIMIT, unlawful),
        ("a file that shrinks below what was read", FILE_LIMIT + 1, 0, unlawful),
    )
    for case, size, changed, due in cases:
        end = run_changed(size, changed)
        seen.need(case, end == due, end or "it was never caught while it was read")


def main():
    seen = Seen()
    os.mkdir("folder")
    for command in COMMANDS:
        check_outputs(seen, command)
        check_inputs(seen, command)
    check_endless(seen)
    check_parts(seen)
    check_changes(seen)
    for wrong in seen.wrong:
        print(f"devices: {wrong}", file=sys.stderr)
    print(f"devices: {len(COMMANDS)} commands, {seen.runs} runs, {len(seen.wrong)} differences")
    sys.exit(1 if seen.wrong else 0)


main()
