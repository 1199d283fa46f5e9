"""Reads quotas as the rules that they state: each has a number, a name, a floor, a ceiling, and the pairs that it
counts.

docs/FORMATS.md has the text. Whether the quotas are lawful is the program's business; here they must only be such
that the lottery's names are in them.
"""

from dataclasses import dataclass, field

from .texts import ALL, DIFFERS, NO_CEILING, NONE, Records, need, places_of


@dataclass
class Rule:
    """A rule: its kind and name, floor and ceiling, the words of its `in` records, and its cells as pairs of
    places."""

    kind: str
    name: str
    floor: int
    ceiling: int
    counts: list = field(default_factory=list)
    cells: set = field(default_factory=set)


class Quotas:
    """What the records have stated so far: names that stand for agents and for columns, and rules in their order."""

    def __init__(self, text, lottery):
        self.text = text
        self.is_designed = lottery.is_designed()
        self.agents = {name: {place} for name, place in places_of(text, lottery.agents).items()}
        self.columns = {name: {place} for name, place in places_of(text, lottery.columns).items() if name != NONE}
        self.all_agents = set(range(len(lottery.agents)))
        self.all_columns = set().union(*self.columns.values())
        self.rules = []
        self.sets = {}

    def bound(self, fields, place, without):
        entry = fields[place] if place < len(fields) else ""
        return self.text.count(entry) if entry else without

    def found(self, names, everything, name):
        return everything if name == ALL else self.text.place(names, name)

    def add_rule(self, kind, fields, place, cells):
        floor, ceiling = self.bound(fields, place, 0), self.bound(fields, place + 1, NO_CEILING)
        self.rules.append(Rule(kind, fields[0], floor, ceiling, cells=cells))

    def take_object(self, fields):
        columns = self.text.place(self.columns, fields[0])
        self.add_rule("object", fields, 1, {(agent, column) for agent in self.all_agents for column in columns})

    def take_agent(self, fields):
        """With shares the row of an agent is a rule; in a design it states a demand, which the lottery's rows
        have."""
        agents = self.text.place(self.agents, fields[0])
        if not self.is_designed:
            self.add_rule("agent", fields, 1, {(agent, column) for agent in agents for column in self.all_columns})

    def take_group(self, fields):
        members = (self.text.place(self.agents, name) for name in fields[1:] if name)
        self.agents[fields[0]] = set().union(*members)

    def take_bundle(self, fields):
        members = (self.text.place(self.columns, name) for name in fields[1:] if name)
        self.columns[fields[0]] = set().union(*members)

    def take_set(self, fields):
        self.add_rule("set", fields, 2, set())
        self.sets[fields[0]] = self.rules[-1]

    def take_in(self, fields):
        rule = self.text.place(self.sets, fields[0])
        agents = self.found(self.agents, self.all_agents, fields[1])
        columns = self.found(self.columns, self.all_columns, fields[2])
        rule.counts.append((fields[1], fields[2]))
        rule.cells.update((agent, column) for agent in agents for column in columns)


def read_rules(path, lottery):
    """The rules in the order of their numbers."""
    text = Records(path)
    quotas = Quotas(text, lottery)
    takers = {
        "object": (quotas.take_object, 2),
        "agent": (quotas.take_agent, 2),
        "group": (quotas.take_group, 2),
        "bundle": (quotas.take_bundle, 2),
        "set": (quotas.take_set, 3),
        "in": (quotas.take_in, 4),
    }
    while text.is_next():
        kind, *fields = text.any("a record")
        text.need(kind in takers, f"'{kind}' isn't a kind of record")
        taker, least = takers[kind]
        text.need(len(fields) >= least - 1, f"'{kind}' has too few fields")
        taker(fields)
    stated, priced = len(quotas.rules), len(lottery.prices)
    line = f"{path}: {stated} rules are stated, and the lottery has {priced} prices"
    need(not lottery.prices or stated == priced, DIFFERS, line)
    return quotas.rules
