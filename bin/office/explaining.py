"""What bin/explain does: it looks at the files, runs the program, and says in plain words why it refused."""

from office import documents, exports, input_causes, lottery_causes, pact_causes, run_causes
from office.records import LINE_END
from office.run import Run, go, place
from office.telling import say as write


def say(where, *lines):
    """Writes a place and what is to be said of it to standard error."""
    told = "".join(f"\n  {it}" for it in lines if it)
    write(f"explain: {where}{told}")


def explain(run, said):
    """Says what the line means, if it is one of the program's."""
    cause = documents.cause_of(run.page, said, run.command)
    if cause is None:
        return
    values = {it: int(number) for it, number in cause.values.items() if number and it != "numbers"}
    if cause.name == "Input":
        return explain_record(run, values["F"], documents.INPUT_KINDS, values)
    if cause.name == "Lottery":
        return explain_record(run, run.number_of("LOTTERY"), documents.LOTTERY_KINDS, values)
    if cause.name == "Pact":
        return explain_record(run, run.number_of("PACT"), documents.PACT_KINDS, values)
    if cause.name == "AuditFailed":
        return explain_audit(run, [int(it) for it in cause.values["numbers"].split()])
    where, likely = of_run(run, cause.name, values)
    return say(f"{where}: {cause.name}", f"what is wrong: {of_command(cause.wrong)}", likely and f"likely: {likely}",
               f"what to do: {cause.remedy}")


def of_command(text):
    """A text without the commands that it is said of."""
    begin, _, rest = text.partition(": ")
    return rest if begin.startswith("of ") else text


def of_run(run, name, values):
    """Where a cause lies that isn't one record's, and what is likely."""
    number = values.get("F", 0)
    quotas, matrix = run.path(run.number_of("QUOTAS")), run.path(run.number_of("MATRIX"))
    first = run.path(1)
    looks = {
        "Usage": lambda: ("the words", run_causes.usage(run)),
        "ReadFault": lambda: (run.path(number), run_causes.read(run, number)),
        "TooLong": lambda: (run.path(number), run_causes.too_long(run, number)),
        "Crossing": lambda: (quotas, run_causes.crossing(run, values["A"], values["B"])),
        "NoSides": lambda: (quotas, "`sides` on the same files shows the rules that overlap in a ring"),
        "Infeasible": lambda: (matrix, run_causes.infeasible(run, values["S"], values["U"])),
        "OverTotal": lambda: (matrix, run_causes.over_total(run, values["A"], values["C"])),
        "TooFine": lambda: (first, run_causes.too_fine(run, values["D"])),
        "OverGuard": lambda: (first, run_causes.over_guard(run, values["S"])),
        "TicketOutOfRange": lambda: (first, run_causes.ticket(values["D"])),
        "NoTicket": lambda: ("the seed", None),
        "WriteFault": lambda: ("standard output", "the disk is full, or the reader of a pipe has gone"),
        "NoMemory": lambda: ("the run", None),
    }
    return looks[name]() if name in looks else ("the run", None)


def explain_record(run, number, heading, values):
    """Says what is wrong with a record of a file."""
    kind = documents.kinds(run.page, heading).get(values["K"])
    path, role = run.files[number - 1]
    found = run.records[number - 1]
    record = found[values["R"] - 1] if 0 < values["R"] <= len(found) else None
    where = place(path, record) if record else f"{path}, after its last line (record {values['R']})"
    if role == "LOTTERY":
        likely = lottery_causes.likely(kind.name, record, found)
    elif role == "PACT":
        likely = pact_causes.likely(kind.name, record, found)
    else:
        likely = input_causes.likely(kind.name, role, record, run.known)
    say(where, f"what is wrong: {kind.wrong} (kind {kind.number}, {kind.name})", likely and f"likely: {likely}",
        open_quote(record) if record else None, f"what to do: {kind.remedy}")


def open_quote(record):
    """What a cell is that goes over several lines, or None."""
    for place, text in enumerate(record.fields, 1):
        breaks = len(LINE_END.findall(text))
        if breaks > 1:
            return f"likely: cell {place} has {breaks} line breaks, so a quote above may lack its end"
    return None


def explain_audit(run, numbers):
    """Says which check of an audit failed, and on whom."""
    check = documents.checks(run.page).get(numbers[0])
    fields = run_causes.audit(run, check, numbers[1:])
    say(f"{run.path(3)}: the audit's check {check.number}, {check.name}, failed", f"what is wrong: {check.wrong}",
        f"here: {fields}", "what to do: docs/AUDIT.md says what it means; take no such lottery for a draw")


def main(words):
    """Looks, runs and explains; returns the status of the program."""
    try:
        page = documents.page()
    except OSError as error:
        say(f"{error.filename} can't be read, and it has the words of every hint")
        return go(words)[0]
    run = Run(words, page)
    tell(lambda: look(run))
    status, said = go(words)
    if status not in (0, 70) and said:
        tell(lambda: explain(run, said))
    return status


def look(run):
    """Names what exports did wrong."""
    for one in exports.look([(*file, data) for file, data in zip(run.files, run.contents)]):
        say(f"{one.place}: {one.wrong}", f"what to do: {one.remedy}")


def tell(hints):
    """Gives hints. A fault of this script must not hide what the program says, nor its status."""
    try:
        hints()
    except Exception as error:
        say(f"no hint here, since this script itself has a fault: {error!r}")
