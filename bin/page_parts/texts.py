"""Reads the texts that a page is made of: a lottery, what `pick` or `draw` wrote, a table, preference lists, shares,
quotas.

Each reader answers a value, or raises Fault with a line for whoever runs the script. docs/FORMATS.md has the texts.
Numbers are whole numbers and fractions, and nothing is rounded.
"""

import csv
import io
import re
from dataclasses import dataclass, field
from fractions import Fraction

NONE = "none"
ALL = "*"
MARK = "\ufeff"
NO_CEILING = 1000

# How a run ends: files that don't belong together, words, a text, a device.
DIFFERS, USAGE, INPUT, DEVICE = 1, 2, 3, 4

csv.field_size_limit(1 << 30)


class Fault(Exception):
    """Why no page is made: a status and a line."""

    def __init__(self, status, line):
        super().__init__(line)
        self.status = status


def need(holds, status, line):
    if not holds:
        raise Fault(status, line)


def bytes_of(path):
    try:
        with open(path, "rb") as file:
            return file.read()
    except OSError as error:
        raise Fault(DEVICE, f"{path}: {error.strerror}") from error


class Records:
    """The records of a text with a field in them, taken one after another; each has its number among all records."""

    def __init__(self, path):
        self.path = path
        try:
            text = bytes_of(path).decode()
        except UnicodeDecodeError as error:
            raise Fault(INPUT, f"{path}: the text isn't UTF-8") from error
        lines = csv.reader(io.StringIO(text.removeprefix(MARK).removeprefix(MARK), newline=""))
        numbered = enumerate((fields for fields in lines if fields), 1)
        shortened = ((number, without_end(fields)) for number, fields in numbered)
        self.left = [(number, fields) for number, fields in shortened if fields]
        self.left.reverse()
        self.number = 0

    def is_next(self, kind=None):
        return bool(self.left) and (kind is None or self.left[-1][1][0] == kind)

    def any(self, what):
        need(self.left, INPUT, f"{self.path}: the text ends before {what}")
        self.number, fields = self.left.pop()
        return fields

    def take(self, kind, length=None):
        """The fields after the first one of the next record, which must be of this kind, and have so many fields."""
        fields = self.any(f"a record '{kind}'")
        self.need(fields[0] == kind, f"'{kind}' was due in place of '{fields[0]}'")
        self.need(length is None or len(fields) == length, f"'{kind}' has {len(fields)} fields in place of {length}")
        return fields[1:]

    def need(self, holds, what):
        need(holds, INPUT, f"{self.path} record {self.number}: {what}")

    def count(self, text):
        self.need(re.fullmatch("[0-9]{1,39}", text), f"'{text}' isn't a whole number")
        return int(text)

    def place(self, names, name):
        self.need(name in names, f"'{name}' isn't known")
        return names[name]

    def end(self, due):
        self.need(self.count(self.take("end", 2)[0]) == due, f"the end doesn't say {due}")
        need(not self.left, INPUT, f"{self.path}: something stands after the end")


def without_end(fields):
    """Empty fields at the end are left off."""
    while fields and not fields[-1]:
        fields = fields[:-1]
    return fields


def places_of(text, names):
    """The place of each name, which must be distinct."""
    text.need(len(set(names)) == len(names), "a name stands twice")
    return {name: place for place, name in enumerate(names)}


@dataclass
class Piece:
    """A whole assignment: its first ticket, how many it has, and triples of an agent, a column and how often it is
    given."""

    first: int
    weight: int
    gives: list


@dataclass
class Lottery:
    """A lottery; agents and columns are told by their places, from 0. One of settled shares has no prices and no
    lists."""

    denominator: int
    agents: list
    columns: list
    units: list
    prices: list = field(default_factory=list)
    lists: list = field(default_factory=list)
    pieces: list = field(default_factory=list)

    def is_designed(self):
        return self.columns[-1:] == [NONE]

    def demand(self, agent):
        return Fraction(sum(self.units[agent]), self.denominator)


def read_rows(text, agents, columns):
    """A row of units for each agent, in order."""
    rows = []
    for name in agents:
        fields = text.take("row", len(columns) + 2)
        text.need(fields[0] == name, f"the row of '{name}' was due")
        rows.append([text.count(unit) for unit in fields[1:]])
    return rows


def read_lists(text, agents, columns):
    """A list of columns for each agent, as the worths have them: `none` ends each."""
    lists = []
    for name in agents:
        lists.append([])
        while not lists[-1] or lists[-1][-1] != columns[NONE]:
            agent, choice, worth = text.take("worth", 4)
            text.need(agent == name, f"a worth of '{name}' was due")
            text.need(re.fullmatch("-?[0-9]{1,38}", worth), f"'{worth}' isn't a whole number")
            lists[-1].append(text.place(columns, choice))
    return lists


def read_gives(text, agents, columns):
    gives = []
    while text.is_next("give"):
        agent, column, often = text.take("give", 4)
        gives.append((text.place(agents, agent), text.place(columns, column), text.count(often)))
        text.need(len(gives) < 2 or gives[-2][:2] < gives[-1][:2], "this give stands before the one above it")
    return gives


def read_pieces(text, agents, columns, denominator):
    """The pieces, whose weights add up to the denominator."""
    pieces, given = [], 0
    while text.is_next("piece"):
        number, weight = map(text.count, text.take("piece", 3))
        text.need(number == len(pieces) + 1, f"piece {len(pieces) + 1} was due")
        pieces.append(Piece(given, weight, read_gives(text, agents, columns)))
        given += weight
    text.need(given == denominator, f"the weights add up to {given} in place of {denominator}")
    return pieces


def read_lottery(path):
    text = Records(path)
    text.need(text.take("lottery", 2) == ["1"], "the version isn't 1")
    denominator = text.count(text.take("denominator", 2)[0])
    text.need(denominator >= 1, "the denominator is 0")
    names, columns = text.take("agents"), text.take("objects")
    agents, column_places = places_of(text, names), places_of(text, columns)
    lottery = Lottery(denominator, names, columns, read_rows(text, names, columns))
    while text.is_next("price"):
        number, price = map(text.count, text.take("price", 3))
        text.need(number == len(lottery.prices) + 1, f"price {len(lottery.prices) + 1} was due")
        lottery.prices.append(price)
    if lottery.is_designed():
        lottery.lists = read_lists(text, names, column_places)
    lottery.pieces = read_pieces(text, agents, column_places, denominator)
    text.end(len(lottery.pieces))
    check_sums(path, lottery)
    return lottery


def check_sums(path, lottery):
    """The tickets that give each cell are its units: a page with other odds than those that are drawn is not made."""
    given = [[0] * len(lottery.columns) for _ in lottery.agents]
    for piece in lottery.pieces:
        for agent, column, often in piece.gives:
            given[agent][column] += often * piece.weight
    for name, row, due in zip(lottery.agents, given, lottery.units):
        for column, tickets, units in zip(lottery.columns, row, due):
            line = f"{path}: {tickets} tickets give '{name}' '{column}', and the row says {units}"
            need(tickets == units, DIFFERS, line)


def read_picked(path, lottery):
    """The ticket and the number of its piece, from 0, which must be those of the lottery."""
    text = Records(path)
    ticket, denominator = map(text.count, text.take("ticket", 3))
    number, weight = map(text.count, text.take("piece", 3))
    agents, columns = places_of(text, lottery.agents), places_of(text, lottery.columns)
    gives = read_gives(text, agents, columns)
    text.end(len(gives))
    need(denominator == lottery.denominator, DIFFERS, f"{path}: the denominator isn't that of the lottery")
    need(1 <= number <= len(lottery.pieces), DIFFERS, f"{path}: the lottery has no piece {number}")
    piece = lottery.pieces[number - 1]
    line = f"{path}: piece {number} of the lottery is another one"
    need((weight, gives) == (piece.weight, piece.gives), DIFFERS, line)
    line = f"{path}: ticket {ticket} isn't one of piece {number}"
    need(piece.first <= ticket < piece.first + piece.weight, DIFFERS, line)
    return ticket, number - 1


def read_moments(path, lottery):
    """The moments of a table by rule, in parts of the denominator; its rows must be those of the lottery."""
    text = Records(path)
    text.need(text.take("table", 2) == ["1"], "the version isn't 1")
    denominator = text.count(text.take("denominator", 2)[0])
    columns = text.take("objects")
    moments = []
    while text.is_next("moment"):
        number, moment = map(text.count, text.take("moment", 3))
        text.need(number == len(moments) + 1, f"moment {len(moments) + 1} was due")
        moments.append(moment)
    need(columns == lottery.columns, DIFFERS, f"{path}: the columns aren't those of the lottery")
    rows = read_rows(text, lottery.agents, columns)
    text.end(len(rows))
    same = (denominator, rows) == (lottery.denominator, lottery.units)
    need(same, DIFFERS, f"{path}: the odds aren't those of the lottery")
    need(not lottery.prices or len(moments) == len(lottery.prices), DIFFERS, f"{path}: the lottery has other rules")
    return moments


def check_lists(path, lottery):
    """The preference lists are those that the lottery was made for."""
    text = Records(path)
    need(lottery.is_designed(), DIFFERS, f"{path}: the lottery is one of settled shares and has no lists")
    text.take("agent")
    columns = places_of(text, lottery.columns)
    for name, due in zip(lottery.agents, lottery.lists):
        fields = text.any(f"the list of '{name}'")
        found = [text.place(columns, choice) for choice in fields[1:] if choice]
        found += [] if found[-1:] == [columns[NONE]] else [columns[NONE]]
        line = f"{path} record {text.number}: the lottery has another list for '{name}'"
        need(fields[0] == name and found == due, DIFFERS, line)
    need(not text.is_next(), DIFFERS, f"{path}: the lottery has fewer lists")


def check_shares(path, lottery):
    """The shares are those that the lottery was made for."""
    text = Records(path)
    need(text.take("agent") == lottery.columns, DIFFERS, f"{path}: the columns aren't those of the lottery")
    for name, units in zip(lottery.agents, lottery.units):
        fields = text.any(f"the shares of '{name}'")
        shares = fields[1:] + [""] * (len(units) - len(fields) + 1)
        due = [Fraction(unit, lottery.denominator) for unit in units]
        same = fields[0] == name and [share(text, entry) for entry in shares] == due
        need(same, DIFFERS, f"{path} record {text.number}: the lottery has other odds for '{name}'")
    need(not text.is_next(), DIFFERS, f"{path}: the lottery has fewer rows")


def share(text, entry):
    text.need(re.fullmatch(r"|[0-9]+|[0-9]+/0*[1-9][0-9]*|[0-9]+\.[0-9]+", entry), f"'{entry}' isn't a share")
    return Fraction(entry or 0)
