"""What bin/rules does: it expands rows `each agent` and `each object` of a quota file into `set` and `in` records."""

import sys

from office import names, texts
from office.input_causes import COUNT, near
from office.names import shown
from office.records import records, row
from office.stated import cell, stated
from office.telling import say as write

USAGE, WRONG, DEVICE = 2, 3, 4
MOST_SETS = 1000
FORMS = "each agent,AGENTS,FLOOR,CEILING,OBJECTS.. or each object,OBJECTS,FLOOR,CEILING,AGENTS.."
WITH_MATRIX = {"solve": False, "table": False, "sets": False, "decompose": True}


class Stop(Exception):
    """Why nothing is written, with the status."""

    def __init__(self, status, why):
        super().__init__(why)
        self.status = status


def load(path):
    """The records of a file, as the program counts them."""
    try:
        return records(texts.as_program(texts.read_bytes(path)))
    except texts.Unreadable as error:
        raise Stop(DEVICE, f"{path}: {error}") from error


class Rules:
    """A quota file with rows `each`, and the names that it and the lists or the matrix state."""

    def __init__(self, first, rows, path, with_matrix):
        self.path, self.with_matrix = path, with_matrix
        self.rows = [it for it in rows if it.fields]
        self.known = stated(first, self.rows, with_matrix)
        self.sets = {it: one.record.line for it, one in self.known.sets.items()}
        self.count = len(self.known.numbered)

    def stop(self, record, why):
        raise Stop(WRONG, f"{self.path}, line {record.line} (record {record.number}): {why}")

    def expanded(self):
        """All rows, with `set` and `in` records in place of each row `each`."""
        for record in self.rows:
            word = record.fields[0]
            if word in ("each agent", "each object"):
                yield from self.expand(record)
            elif names.key(word).lower().startswith("each"):
                self.stop(record, f"the first cell is {shown(word)}, and the forms are {FORMS}")
            else:
                yield record.fields

    def expand(self, record):
        """The records that one row `each` stands for: for each of the first names and each of the others a set."""
        by_agent = record.fields[0] == "each agent"
        if len(record.fields) < 5:
            self.stop(record, f"it has {len(record.fields)} cells, and the forms are {FORMS}")
        self.check_numbers(record)
        if by_agent and not self.with_matrix:
            self.stop(record, "in a design from lists a rule on each agent overlaps with the objects' own in part; "
                              "the demands say how much an agent gets, and a matrix of shares takes such rules")
        for one in self.each_of(record, cell(record, 2), of_agents=by_agent):
            for others in filter(None, record.fields[4:]):
                self.each_of(record, others, of_agents=not by_agent)
                name = self.new_name(record, one, others)
                yield ("set", name, "1" if by_agent else "2", cell(record, 3), cell(record, 4))
                yield ("in", name, *((one, others) if by_agent else (others, one)))

    def check_numbers(self, record):
        """A floor and a ceiling as the program takes them."""
        for text in record.fields[2:4]:
            if text and (not COUNT.fullmatch(text) or int(text) > 1000):
                self.stop(record, f"{shown(text)} is no whole number up to 1,000")
        floor, ceiling = int(cell(record, 3) or 0), int(cell(record, 4) or 1000)
        if floor > ceiling:
            self.stop(record, f"the floor {floor} is above the ceiling {ceiling}")
        if floor and not self.with_matrix:
            self.stop(record, "a design from lists has no floors")

    def each_of(self, record, word, of_agents):
        """The agents or objects that a word stands for: `*`, a name, or a group or bundle above this row."""
        single, many = (
            (self.known.agents, self.known.groups) if of_agents else (self.known.objects, self.known.bundles)
        )
        if word in many and many[word].number > record.number:
            self.stop(record, f"{shown(word)} stands on line {many[word].line}, below the row that names it")
        if word != "*" and word not in single and word not in many:
            what = "agent or group" if of_agents else "object or bundle"
            self.stop(record, f"no {what} has the name {shown(word)}" + near(word, {**single, **many}))
        found = self.known.agents_of(word) if of_agents else self.known.objects_of(word)
        return found or self.stop(record, f"{shown(word)} stands for nobody and nothing")

    def new_name(self, record, one, others):
        """A name for a set, which no other has: both names, or where that is too long the line and a count."""
        self.count += 1
        if self.count > MOST_SETS:
            self.stop(record, f"more than {MOST_SETS:,} sets are stated up to here, and the program takes no more")
        name = f"{one}: {'all' if others == '*' else others}"
        if len(name.encode("utf-8", "surrogatepass")) > 64:
            name = f"line {record.line}: set {self.count}"
        if name in self.sets:
            self.stop(record, f"the set {shown(name)} is stated already, by line {self.sets[name]}")
        self.sets[name] = record.line
        return name


def main(words):
    """Writes the quota file to standard output, whole or not at all; returns the status."""
    try:
        if len(words) != 3 or words[0] not in WITH_MATRIX:
            raise Stop(USAGE, f"the words are COMMAND FILE RULES, and COMMAND is one of {', '.join(WITH_MATRIX)}")
        rules = Rules(load(words[1]), load(words[2]), words[2], WITH_MATRIX[words[0]])
        text = "".join(row(fields) + "\n" for fields in rules.expanded())
    except Stop as error:
        return say(str(error), error.status)
    try:
        sys.stdout.buffer.write(text.encode("utf-8", errors="surrogateescape"))
        sys.stdout.flush()
    except OSError as error:
        return say(f"standard output: {error.strerror}", DEVICE)
    return 0


def say(text, status):
    """Writes a line to standard error and gives the status."""
    write(f"rules: {text}")
    return status
