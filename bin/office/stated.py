"""What the records of lists, a matrix and quotas state: names with their records, and sets with their cells."""

from dataclasses import dataclass, field

from office import names

WORDS = ("object", "agent", "group", "bundle", "set", "in")
LENGTHS = {"object": (2, 4), "agent": (2, 4), "group": (2, None), "bundle": (2, None), "set": (3, 5), "in": (4, 4)}


@dataclass
class StatedSet:
    """A set of the quotas: its name, its record, its floor and ceiling as they stand there, and its cells."""

    name: str
    record: object
    floor: str
    ceiling: str
    cells: set = field(default_factory=set)


@dataclass
class Stated:
    """What two files state. Each table has the first record of each name."""

    with_matrix: bool
    agents: dict = field(default_factory=dict)
    objects: dict = field(default_factory=dict)
    groups: dict = field(default_factory=dict)
    bundles: dict = field(default_factory=dict)
    sets: dict = field(default_factory=dict)
    numbered: list = field(default_factory=list)
    members: dict = field(default_factory=dict)

    def agents_of(self, word):
        return self._named(word, self.agents, self.groups)

    def objects_of(self, word):
        return self._named(word, self.objects, self.bundles)

    def _named(self, word, single, many):
        if word == "*":
            return list(single)
        if word in many:
            return [it for it in self.members[id(many[word])] if it in single]
        return [word] if word in single else []

    def product(self, agents, objects):
        return {(one, other) for one in self.agents_of(agents) for other in self.objects_of(objects)}


def cell(record, place):
    """The field at this place, from 1, or an empty one."""
    return record.fields[place - 1] if place <= len(record.fields) else ""


def below_header(records):
    """The records below the first that has a field, that have one themselves."""
    return [it for it in records if it.fields][1:]


def stated(first, quotas, with_matrix):
    """What lists or a matrix, and quotas, state."""
    found = Stated(with_matrix)
    header = next((it for it in first if it.fields), None)
    for record in below_header(first):
        found.agents.setdefault(record.fields[0], record)
    if with_matrix:
        for name in header.fields[1:] if header else ():
            found.objects.setdefault(name, header)
    else:
        for record in quotas:
            if cell(record, 1) == "object" and 2 <= len(record.fields) <= 4 and not names.fault(cell(record, 2)):
                found.objects.setdefault(cell(record, 2), record)
    for record in quotas:
        _add(found, record)
    return found


def _add(found, record):
    """Adds what one record of the quotas states."""
    word, name = cell(record, 1), cell(record, 2)
    if word in ("group", "bundle"):
        found.members[id(record)] = record.fields[2:]
        (found.groups if word == "group" else found.bundles).setdefault(name, record)
    elif word == "object":
        found.numbered.append(StatedSet(name, record, cell(record, 3), cell(record, 4), found.product("*", name)))
    elif word == "agent" and found.with_matrix:
        found.numbered.append(StatedSet(name, record, cell(record, 3), cell(record, 4), found.product(name, "*")))
    elif word == "set":
        one = StatedSet(name, record, cell(record, 4), cell(record, 5))
        found.numbered.append(one)
        found.sets.setdefault(name, one)
    elif word == "in" and name in found.sets:
        found.sets[name].cells |= found.product(cell(record, 3), cell(record, 4))
