#!/usr/bin/env python3
"""Reads a page of bin/page back, and compares its numbers with the files that it was made from.

page_numbers.py compare LOTTERY PAGE [ASSIGNMENTS] [-- PICKED]: ends with 1 where the page, or that of its
    assignments, says anything else than the lottery: odds, places, assignments with their tickets, bars, the draw.
page_numbers.py moments TABLE PAGE: the same of the moments at which rules are full, and of the lines in the bars.
page_numbers.py rules QUOTAS LOTTERY PAGE: the same of the rules, their bounds, and how much of each there is.
page_numbers.py sums PAGE FILE..: the same of the checksums of these files.
page_numbers.py commands PAGE: writes the commands that the page shows.
"""

import collections
import csv
import hashlib
import os
import re
import sys
from fractions import Fraction
from html.parser import HTMLParser

VOID = {"meta", "br"}


class Node:
    """An element with its classes, its attributes, and what is in it."""

    def __init__(self, kind, attributes):
        self.kind, self.attributes, self.parts = kind, dict(attributes), []
        self.classes = (self.attributes.get("class") or "").split()

    def text(self):
        return "".join(part if isinstance(part, str) else part.text() for part in self.parts)

    def all(self, kind, class_name=None):
        for part in self.parts:
            if isinstance(part, Node):
                if part.kind == kind and (class_name is None or class_name in part.classes):
                    yield part
                yield from part.all(kind, class_name)

    def first(self, kind, class_name=None):
        return next(self.all(kind, class_name), None)


class Tree(HTMLParser):
    """The elements of a page; one that isn't closed where it must be is a fault."""

    def __init__(self, path):
        super().__init__(convert_charrefs=True)
        self.open = [Node("", [])]
        with open(path, encoding="utf-8") as file:
            self.feed(file.read())
        self.close()
        need(len(self.open) == 1, f"{path}: an element isn't closed")

    def handle_starttag(self, tag, attrs):
        node = Node(tag, attrs)
        loads = tag == "script" or {"src", "onload", "onclick"} & set(node.attributes)
        need(not loads, "the page has a script, or loads something")
        self.open[-1].parts.append(node)
        if tag not in VOID:
            self.open.append(node)

    def handle_endtag(self, tag):
        need(self.open.pop().kind == tag, f"'{tag}' is closed where another element is open")

    def handle_data(self, data):
        self.open[-1].parts.append(data)


class Lottery:
    """What a lottery says, by names."""

    def __init__(self, path):
        self.units, self.pieces, self.lists = {}, [], collections.defaultdict(list)
        with open(path, encoding="utf-8", newline="") as file:
            for kind, *fields in csv.reader(file):
                self.take(kind, fields)

    def take(self, kind, fields):
        if kind == "denominator":
            self.denominator = int(fields[0])
        elif kind in ("agents", "objects"):
            setattr(self, kind, fields)
        elif kind == "row":
            self.units[fields[0]] = dict(zip(self.objects, map(int, fields[1:]), strict=True))
        elif kind == "worth":
            self.lists[fields[0]].append(fields[1])
        elif kind == "piece":
            self.pieces.append((int(fields[1]), {}))
        elif kind == "give":
            self.pieces[-1][1][fields[0], fields[1]] = int(fields[2])

    def ranges(self):
        """First and last ticket of each piece."""
        first = 0
        for weight, _ in self.pieces:
            yield first, first + weight - 1
            first += weight


def need(holds, what):
    if not holds:
        sys.exit(f"page_numbers: {what}")


def same(found, due, what):
    need(found == due, f"{what}: the page has {found!r}, and the files say {due!r}")


def rows(table):
    """The heads of the rows of a table with their cells."""
    for row in table.first("tbody").all("tr"):
        yield row.first("th").text(), list(row.all("td"))


def odds_of(text, denominator):
    """The units of odds as they are shown."""
    if text == "0":
        return 0
    units, parts = text.split("/")
    same(int(parts), denominator, "a denominator")
    return int(units)


def span_of(text):
    """The first and last ticket of a range."""
    first, _, last = text.partition("–")
    return int(first), int(last or first)


def entry_of(item):
    """The name in a list's entry, or `none`."""
    return (item.first("bdi") or item.first("i")).text()


def check_summary(page, lottery):
    """The numbers of the first sentence: participants, places, tickets, the first and last ticket, assignments."""
    found = [int(number) for number in re.findall("[0-9]+", page.first("div", "summary").first("p").text())]
    kinds = len([name for name in lottery.objects if name != "none"])
    last = [0] if lottery.denominator == 1 else [0, lottery.denominator - 1]
    due = [len(lottery.agents), kinds, lottery.denominator, *last, len(lottery.pieces)]
    same(found, due, "the numbers of the summary")


def check_shade(cell, units, denominator):
    """White only for 0, the darkest for all, and between them darker where the odds are better."""
    due = 0 if units == 0 else 10 if units >= denominator else 1 + units * 9 // denominator
    need(f"shade-{due}" in cell.classes, f"{cell.text()!r} has another shade than {due}")


def check_odds(page, lottery):
    table = page.first("table", "odds")
    found = {}
    for name, cells in rows(table):
        if "matrix" in table.classes:
            shown = list(zip(lottery.objects, cells, strict=True))
            same([cell.attributes["data-label"] for cell in cells], lottery.objects, "the labels of the cells")
        else:
            shown = [(entry_of(item), item) for item in cells[0].all("li")]
        units = {column: odds_of(cell.first("span", "odds").text(), lottery.denominator) for column, cell in shown}
        for column, cell in shown:
            check_shade(cell, units[column], lottery.denominator)
        found[name] = {column: units.get(column, 0) for column in lottery.objects}
    same(list(found), lottery.agents, "the participants")
    same(found, lottery.units, "the odds")


def check_places(page, lottery):
    counts = [collections.Counter() for _ in lottery.pieces]
    for count, (_, gives) in zip(counts, lottery.pieces):
        for (_, column), often in gives.items():
            count[column] += often
    for column, cells in rows(page.first("table", "places")):
        total = sum(units[column] for units in lottery.units.values())
        same(Fraction(cells[0].text()), Fraction(total, lottery.denominator), f"how many get {column}")
        numbers = [int(word) for word in cells[1].text().split() if word.isdigit()]
        found = [count[column] for count in counts]
        same((numbers[0], numbers[-1]), (min(found), max(found)), f"how many get {column} in each assignment")


def takers(piece):
    """Who gets what in an assignment of the page, and how often."""
    for column, cells in rows(piece.first("table")):
        for item in cells[0].all("li"):
            name, times, often = item.text().rpartition(" × ")
            yield (name if times else item.text(), column), int(often) if times else 1


def check_pieces(page, lottery):
    found = list(page.all("article", "piece"))
    same(len(found), len(lottery.pieces), "how many assignments there are")
    for number, (piece, (weight, gives), span) in enumerate(zip(found, lottery.pieces, lottery.ranges()), 1):
        same(piece.first("h3").text().removesuffix(" – drawn"), f"Assignment {number}", "a heading")
        same(span_of(piece.first("b", "range").text()), span, f"the tickets of assignment {number}")
        due = f" {weight} of {lottery.denominator}"
        same(piece.first("span", "weight").text(), due, f"the weight of assignment {number}")
        same(dict(takers(piece)), gives, f"assignment {number}")


def check_tickets(page, lottery):
    """For each participant and place, all tickets that give it; and how many there are."""
    due = collections.defaultdict(set)
    for (first, last), (_, gives) in zip(lottery.ranges(), lottery.pieces):
        for (agent, column), often in gives.items():
            due[agent, column, often].update({first, last})
    found = collections.defaultdict(set)
    for agent, cells in rows(page.first("table", "tickets")):
        for item in cells[0].all("li"):
            often = 1 if " × " not in item.text() else int(item.text().rsplit(" × ", 1)[1].split(":")[0])
            spans = [span_of(span) for span in item.first("span", "range").text().split(", ")]
            total = sum(last - first + 1 for first, last in spans)
            same(item.text().rsplit("(", 1)[1], f"{total})", f"the sum of the tickets of {agent}")
            found[agent, entry_of(item), often] = spans
    same(set(found), set(due), "who gets what by some ticket")
    for key, tickets in due.items():
        inside = all(any(first <= ticket <= last for first, last in found[key]) for ticket in tickets)
        need(inside, f"the tickets of {key} don't have all ranges")
    check_ticket_sums(found, lottery)


def check_ticket_sums(found, lottery):
    sums = collections.Counter()
    for (agent, column, often), spans in found.items():
        sums[agent, column] += often * sum(last - first + 1 for first, last in spans)
    due = {(agent, column): units for agent, row in lottery.units.items() for column, units in row.items() if units}
    same(dict(sums), due, "the sums of the tickets")


def hundredths(value):
    """A part of the bar in hundredths of a percent, which is as fine as it is drawn."""
    return int(value * 10000)


def drawn_at(text):
    return Fraction(text.removesuffix("%")) * 100


def check_part(part, place, start, end):
    """A part of a bar is drawn where its moments are, in the colour of its column."""
    for box in part.all("rect"):
        found = drawn_at(box.attributes["x"]), drawn_at(box.attributes["width"])
        same(found, (hundredths(start), hundredths(end - start)), f"where {part.text()!r} is drawn")
    due = "eat-none" if part.text().startswith("none: ") else f"eat-{place % 10}"
    same(part.first("rect").classes, [due], f"the colour of {part.text()!r}")


def check_bars(page, lottery):
    """The bars lie end to end from 0 to 1, in the order of the list, and their lengths are the odds over the
    demand."""
    bars = [svg for svg in page.all("svg") if svg.attributes.get("role") == "img"]
    same(len(bars), len(lottery.agents), "how many bars there are")
    for agent, bar in zip(lottery.agents, bars):
        told = ", ".join(" from ".join(title.text().rsplit(": ", 1)) for title in bar.all("title"))
        same(bar.attributes["aria-label"], f"{agent} eats {told}", f"what is read out of the bar of {agent}")
        demand, moment, eaten = Fraction(sum(lottery.units[agent].values()), lottery.denominator), Fraction(0), []
        for part in bar.all("g"):
            column, _, span = part.first("title").text().rpartition(": ")
            start, end = map(Fraction, span.split(" to "))
            check_part(part, lottery.objects.index(column), start, end)
            same(start, moment, f"where {agent} begins to eat {column}")
            units = (end - start) * demand * lottery.denominator
            same(units, lottery.units[agent][column], f"what {agent} eats of {column}")
            moment, eaten = end, [*eaten, column]
        due = [column for column in lottery.lists[agent] if lottery.units[agent][column]]
        same((moment, eaten), (1, due), f"the bar of {agent}")


def check_drawn(page, picked):
    """What the page says of the draw is what was picked."""
    with open(picked, encoding="utf-8", newline="") as file:
        records = list(csv.reader(file))
    due = collections.defaultdict(list)
    for kind, *fields in records:
        if kind == "give":
            due[fields[0]].append(fields[1] if fields[2] == "1" else f"{fields[1]} × {fields[2]}")
    line = page.first("p", "drawn-line")
    due_line = f"Ticket {records[0][1]} was drawn. It names assignment {records[1][1]}."
    same(line.text(), due_line, "the line of the draw")
    counts = collections.Counter()
    for record in records:
        if record[0] == "give":
            counts[record[2]] += int(record[3])
    for column, cells in rows(page.first("table", "places")):
        same(int(cells[2].text()), counts[column], f"how many were drawn for {column}")
    for agent, cells in rows(page.first("table", "drawn")):
        same(cells[0].text(), ", ".join(due[agent]) or "nothing", f"what {agent} gets")


def compare(lottery_path, page_path, *more):
    lottery, page = Lottery(lottery_path), Tree(page_path).open[0]
    pages, picked = (more[: more.index("--")], more[more.index("--") + 1]) if "--" in more else (more, None)
    second = Tree(pages[0]).open[0] if pages else page
    check_summary(page, lottery)
    check_odds(page, lottery)
    check_places(page, lottery)
    check_pieces(second, lottery)
    check_tickets(second, lottery)
    if page.first("div", "eating"):
        check_bars(page, lottery)
    if picked:
        check_drawn(page, picked)


def goings(bars):
    """Who goes on from which column to which, by moment, as the bars have it."""
    found = collections.defaultdict(set)
    for bar in bars:
        who = bar.attributes["aria-label"].split(" eats ")[0]
        parts = [title.text().rpartition(": ") for title in bar.all("title")]
        for (column, _, span), (after, _, _) in zip(parts, parts[1:]):
            found[Fraction(span.split(" to ")[1])].add((column, after, who))
    return found


def told_goings(entry):
    """The same of what stands below a moment."""
    found, shown = set(), entry.first("ul", "goings")
    for item in shown.parts if shown else []:
        column, after = [node.text() for node in item.parts if isinstance(node, Node)][:2]
        found.update((column, after, name.text()) for name in item.first("ul").all("li"))
    return found


def moments(table_path, page_path):
    with open(table_path, encoding="utf-8", newline="") as file:
        records = list(csv.reader(file))
    denominator = int(records[1][1])
    full = {Fraction(int(record[2]), denominator) for record in records if record[0] == "moment"} - {1}
    page = Tree(page_path).open[0]
    told = page.first("dl", "moments")
    found = [Fraction(at.text().split(" ")[1]) for at in told.all("dt")] if told else []
    same(found, sorted(full), "the moments at which rules are full")
    due = goings(svg for svg in page.all("svg") if svg.attributes.get("role") == "img")
    for moment, entry in zip(found, told.all("dd") if told else []):
        same(told_goings(entry), due[moment], f"who goes on at {moment}")
    for bar in page.all("svg"):
        lines = [(drawn_at(line.attributes["x1"]), drawn_at(line.attributes["x2"])) for line in bar.all("line")]
        due = [hundredths(moment) for moment in found]
        need(not lines or lines == [(at, at) for at in due], "a line is drawn at another moment")


class Quotas:
    """The rules of quotas: a name, a floor, a ceiling, and the pairs that each counts."""

    def __init__(self, path, lottery):
        objects = [name for name in lottery.objects if name != "none"]
        self.has_row_rules = len(objects) == len(lottery.objects)
        self.agents = {name: [name] for name in lottery.agents} | {"*": lottery.agents}
        self.objects = {name: [name] for name in objects} | {"*": objects}
        self.rules = []
        with open(path, encoding="utf-8", newline="") as file:
            for kind, *fields in csv.reader(file):
                self.take(kind, fields)

    def take(self, kind, fields):
        if kind == "object":
            self.add(fields[0], fields[1:], "*", fields[0])
        elif kind == "agent" and self.has_row_rules:
            self.add(fields[0], fields[1:], fields[0], "*")
        elif kind == "set":
            self.add(fields[0], fields[2:])
        elif kind == "in":
            next(rule for rule in reversed(self.rules) if rule[0] == fields[0])[3].update(self.pairs(*fields[1:]))
        elif kind in ("group", "bundle"):
            names = self.agents if kind == "group" else self.objects
            names[fields[0]] = [name for name in fields[1:] if name]

    def pairs(self, agents, objects):
        return {(agent, column) for agent in self.agents[agents] for column in self.objects[objects]}

    def add(self, name, bounds, *counted):
        floor, ceiling = (int(bound or without) for bound, without in zip([*bounds, "", ""], (0, 1000)))
        self.rules.append((name, floor, ceiling, self.pairs(*counted) if counted else set()))


def rules(quotas_path, lottery_path, page_path):
    lottery = Lottery(lottery_path)
    found = list(rows(Tree(page_path).open[0].first("table", "rules")))
    due = Quotas(quotas_path, lottery).rules
    numbers = [str(number) for number in range(1, len(due) + 1)]
    same([number for number, _ in found], numbers, "the numbers of the rules")
    for (number, cells), (name, floor, ceiling, pairs) in zip(found, due):
        same(cells[0].first("bdi").text(), name, f"the name of rule {number}")
        bounds = [int(word) for word in cells[1].text().split() if word.isdigit()]
        shown = [floor, ceiling] if 0 < floor < ceiling else [] if (floor, ceiling) == (0, 1000) else [ceiling]
        same(bounds, shown, f"what rule {number} allows")
        counts = [sum(often for pair, often in gives.items() if pair in pairs) for _, gives in lottery.pieces]
        span = [int(word) for word in cells[2].text().split() if word.isdigit()]
        same((span[0], span[-1]), (min(counts), max(counts)), f"how much of rule {number} there is")


def sums(page_path, *paths):
    shown = {name: cells[0].text() for name, cells in rows(Tree(page_path).open[0].first("table", "sums"))}
    for path in paths:
        with open(path, "rb") as file:
            same(shown[os.path.basename(path)], hashlib.sha256(file.read()).hexdigest(), f"the checksum of {path}")
    same(len(shown), len(paths), "how many files are named")


def commands(page_path):
    for entry in Tree(page_path).open[0].all("dd"):
        if entry.first("code") and entry.first("code").text().startswith("bin/"):
            print(entry.first("code").text())


if __name__ == "__main__":
    checks = {"compare": compare, "moments": moments, "rules": rules, "sums": sums, "commands": commands}
    checks[sys.argv[1]](*sys.argv[2:])
