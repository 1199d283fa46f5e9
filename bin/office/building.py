"""Proves and builds the program: a copy of the crates that it stands on is proved side by side by `rt ci`.

bin/lottery calls it. The copy has no must-fail edits and none of the crates of tests, so the sources are proved as
they stand, and nothing else. `rt` keeps what passed, so a run that was broken off goes on where it was.
"""

import os
import re
import shutil
import signal
import subprocess
import sys
import tempfile
import time

from office.telling import say as write
from office.whole import Unwritable, write_whole

FAILED = 70
PROGRAM = "lottery"
ENDED = re.compile(r"rt: (\w+) (?:proved|is kept)\b")
LEFT_OUT = {"out", "must-fail"}


def say(text):
    write(f"lottery: {text}")


def listed(top):
    """The lines of crates.txt by the crates' names, each with the crates that it stands on."""
    found = {}
    with open(os.path.join(top, "crates.txt"), encoding="utf-8") as file:
        for line in file:
            name, colon, below = line.partition("#")[0].partition(":")
            if colon:
                found[name.split()[0]] = (line, below.split())
    return found


def needed(lines):
    """The crates that the program stands on, the program included, in the order of crates.txt."""
    wanted, left = set(), [PROGRAM]
    while left:
        name = left.pop()
        if name in lines and name not in wanted:
            wanted.add(name)
            left += lines[name][1]
    return {it: [below for below in lines[it][1] if below in lines] for it in lines if it in wanted}


def copy_sources(top, room, lines, crates):
    """A repository of these crates alone."""
    os.makedirs(os.path.join(room, ".git"))
    with open(os.path.join(room, "crates.txt"), "w", encoding="utf-8") as file:
        file.writelines(lines[it][0] for it in crates)
    if os.path.exists(os.path.join(top, "HANDLES")):
        shutil.copyfile(os.path.join(top, "HANDLES"), os.path.join(room, "HANDLES"))
    for name in crates:
        crate = os.path.join(top, "crates", name)
        shutil.copytree(crate, os.path.join(room, "crates", name), ignore=left_out(crate))


def left_out(crate):
    """What isn't copied of a crate: its must-fail edits, and what earlier checks made."""
    return lambda at, names: LEFT_OUT & set(names) if at == crate else set()


def at_work(crates, ended):
    """The crates that may be proved now: those whose crates below are proved."""
    return [it for it in crates if it not in ended and all(below in ended for below in crates[it])]


def follow(log, process, crates):
    """Says, as the log grows, how many crates are proved and which are at work, until the process ends."""
    ended, rest = set(), ""
    with open(log, encoding="utf-8", errors="replace") as file:
        while True:
            is_over = process.poll() is not None
            *lines, rest = (rest + file.read()).split("\n")
            new = [found[1] for found in map(ENDED.match, lines) if found and found[1] in crates]
            if set(new) - ended:
                ended |= set(new)
                say(progress(crates, ended))
            if is_over:
                return process.returncode
            # (a check may ask for shorter looks)
            time.sleep(float(os.environ.get("LOTTERY_FOLLOW_SECONDS", "1")))


def progress(crates, ended):
    """The line that says how far it is."""
    now = at_work(crates, ended)
    if not now:
        return f"{len(ended)} of {len(crates)} crates are proved; the program is built and tried"
    return f"{len(ended)} of {len(crates)} crates are proved; at work, or next: {', '.join(now[:4])}"


def prove(room, log, crates):
    """Runs `rt ci` over the copy, and returns its status."""
    environment = {**os.environ, "PYTHONUNBUFFERED": "1"}
    with open(log, "wb") as file:
        process = subprocess.Popen(
            ["rt", "ci"], cwd=room, stdin=subprocess.DEVNULL, stdout=file, stderr=file, env=environment
        )
    try:
        return follow(log, process, crates)
    except BaseException:
        process.terminate()
        process.wait()
        raise


def tail(log, count=40):
    """The last lines of the log."""
    with open(log, encoding="utf-8", errors="replace") as file:
        return "".join(file.readlines()[-count:])


def build(top, room, log):
    """Proves, and puts the program in its place. Its time is that at which the sources were copied."""
    lines, begun = listed(top), time.time()
    crates = needed(lines)
    if PROGRAM not in crates:
        return "crates.txt has no crate `lottery`"
    copy_sources(top, room, lines, crates)
    say(f"proving and building the program, {len(crates)} crates, once; README.md says how long that takes")
    say(f"the log is {log}")
    status = prove(room, log, crates)
    made = os.path.join(room, "crates", PROGRAM, "out", PROGRAM)
    if status or not os.access(made, os.X_OK):
        sys.stderr.write(tail(log))
        return f"the program could not be built; the whole log is {log}"
    place = os.path.join(top, "crates", PROGRAM, "out")
    os.makedirs(place, exist_ok=True)
    with open(made, "rb") as file:
        write_whole(os.path.join(place, PROGRAM), file.read(), mode=0o777, when=begun)
    return None


def main(top):
    """Builds, and returns 0, or 70 where there is no program."""
    if shutil.which("rt") is None:
        say("the program isn't built, and `rt` of the Rattle kit, which proves and builds it, isn't on the PATH")
        say("take the kit, or a package that has the program, or name a built one by LOTTERY_PROGRAM")
        return FAILED
    signal.signal(signal.SIGTERM, signal.default_int_handler)
    handle, log = tempfile.mkstemp(prefix="lottery-build-", suffix=".log")
    os.close(handle)
    try:
        with tempfile.TemporaryDirectory(prefix="lottery-build-") as room:
            why = build(top, os.path.join(room, "repository"), log)
    except KeyboardInterrupt:
        why = f"broken off; the log is {log}, and what passed is kept"
    except (OSError, Unwritable) as error:
        why = f"{error}; the log is {log}"
    if why is None:
        os.remove(log)
        return 0
    say(why)
    return FAILED
