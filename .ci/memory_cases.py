#!/usr/bin/env python3
"""memory_cases.py PROGRAM LIBRARY: runs each command of the program with each of its allocations refused in turn.

LIBRARY is refuse.c, compiled. With it a command is run with allocation 1, 2, 3 and so on refused, until a run ends in
which none was. A run with a refused one ends with status 6, the line `memory` and a front of the text that is due, or
as without, where the program can do without that memory. It says how many were refused of each command, and ends with
1 where a run had another end, or where nothing was refused.
"""

import itertools
import os
import subprocess
import sys
from concurrent.futures import ThreadPoolExecutor
from dataclasses import dataclass

PROGRAM, LIBRARY = sys.argv[1:]
EXAMPLES = os.path.join(os.path.dirname(os.path.dirname(os.path.realpath(__file__))), "examples")
# No run takes so many seconds, unless it doesn't end.
MOST = 60
SEED = "0" * 64
CONTRIBUTION = "4dea8d27c604989ff26d1536f713856231ea73c7e33603638aca08f679b29659"
# The one with most allocations comes first, so that the others run beside it.
COMMANDS = (
    "solve school/lists.csv school/quotas.csv",
    "decompose committee/shares.csv committee/quotas.csv",
    "decompose-free cookbook/overlapping/shares.csv cookbook/overlapping/quotas.csv",
    "sides cookbook/overlapping/shares.csv cookbook/overlapping/quotas.csv",
    "audit school/lists.csv school/quotas.csv school/lottery.csv",
    "audit-matrix committee/shares.csv committee/quotas.csv committee/lottery.csv",
    "envy shifts/lists.csv shifts/quotas.csv shifts/lottery.csv",
    "solve-guarded shifts/lists.csv shifts/quotas.csv",
    "audit-guarded shifts/lists.csv shifts/quotas.csv shifts/lottery.csv",
    "pick first/lottery.csv 1",
    f"draw committee/lottery.csv {SEED}",
    "report school/lottery.csv",
    "sets school/lists.csv school/quotas.csv",
    "table school/lists.csv school/quotas.csv",
    f"generate {SEED} 3 2",
    f"pact-commit Town {CONTRIBUTION}",
    "pact-draw school/lottery.csv pact/pact.csv",
)


@dataclass(frozen=True)
class End:
    """How a run ended: its status, what stands on standard output, and what stands on standard error."""

    status: int
    text: bytes
    line: bytes

    def __str__(self):
        said = self.line.decode(errors="replace")
        return f"status {self.status}, {said!r} on standard error, {len(self.text)} bytes on standard output"


def run(command, number):
    """How a run ends in which the allocation of this number is refused, or none for 0; and whether one was."""
    told, tell = os.pipe()
    variables = {"LD_PRELOAD": LIBRARY, "REFUSE": str(number), "REFUSE_TELL": str(tell)}
    try:
        ran = subprocess.run(
            [PROGRAM, *command.split()],
            stdin=subprocess.DEVNULL,
            capture_output=True,
            check=False,
            cwd=EXAMPLES,
            env=variables,
            pass_fds=[tell],
            timeout=MOST,
        )
    finally:
        os.close(tell)
        with open(told, "rb") as pipe:
            refused = pipe.read() != b""
    return End(ran.returncode, ran.stdout, ran.stderr), refused


def is_due(end, whole):
    """Whether a run may end so in which an allocation is refused, and which else ends with the whole text."""
    return end == whole or (end.status, end.line) == (6, b"memory\n") and whole.text.startswith(end.text)


def tried(command):
    """How many allocations of a command were refused, and what was wrong."""
    whole, _ = run(command, 0)
    if (whole.status, whole.line) != (0, b"") or not whole.text:
        return 0, [f"{command}: {whole}"]
    wrong = []
    for number in itertools.count(1):
        end, refused = run(command, number)
        if not (is_due(end, whole) if refused else end == whole):
            wrong.append(f"{command}: allocation {number} refused: {end}")
        if not refused:
            break
    return number - 1, wrong if number > 1 else [f"{command}: nothing was refused"]


def main():
    with ThreadPoolExecutor(os.cpu_count()) as threads:
        results = list(threads.map(tried, COMMANDS))
    for wrong in itertools.chain.from_iterable(wrong for _, wrong in results):
        print(f"memory: {wrong}", file=sys.stderr)
    differences = sum(len(wrong) for _, wrong in results)
    counts = ", ".join(f"{command.split()[0]} {count:,}" for command, (count, _) in zip(COMMANDS, results))
    refused = sum(count for count, _ in results)
    print(f"memory: {len(COMMANDS)} commands, {refused:,} allocations refused ({counts}), {differences} differences")
    sys.exit(1 if differences else 0)


main()
