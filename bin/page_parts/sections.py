"""The sections of the page: the summary, the drawn assignment, odds, places, rules, assignments, tickets, and how to
check."""

import collections

from . import markup as m

# Odds stand in a matrix up to this many columns, and up to this denominator; else each participant has a list of
# them.
WIDEST_MATRIX = 10
LONGEST_DENOMINATOR = 9999
# Percentages stand beside the odds from this denominator on.
FIRST_WITH_PERCENT = 101
# Beyond so many pairs of a participant and an assignment the list of everybody's tickets is left out.
MOST_TICKET_CELLS = 400000


def summary(page):
    """What this is, in plain words."""
    lottery = page.lottery
    last = lottery.denominator - 1
    who = m.counted(len(lottery.agents), "participant", "participants")
    what = m.counted(len(place_columns(lottery)), "place or kind of place", "kinds of places")
    tickets = m.counted(lottery.denominator, "ticket", "tickets")
    pieces = m.counted(len(lottery.pieces), "whole assignment", "whole assignments")
    numbered = f"numbered 0 to {last}" if last else "number 0"
    first = m.paragraph(
        f"{who} and {what} are in this lottery. It has {tickets}, {numbered}. Each ticket names one of {pieces}, in "
        "which everybody's place is settled at once."
    )
    return m.tag("div", first, meaning(lottery), drawn_line(page), class_="summary")


def meaning(lottery):
    """What the odds mean."""
    parts = lottery.denominator
    if parts == 1:
        return m.paragraph("There is only one ticket, so everything is settled.")
    return m.paragraph(
        f"The odds below count tickets: odds of 1/{parts} at a place are one ticket of {parts} that gives it, and "
        "each ticket is as likely as any other. All numbers are exact."
    )


def drawn_line(page):
    if page.drawn is None:
        return m.paragraph("Nothing has been drawn yet.", class_="drawn-line")
    ticket, number = page.drawn
    link = m.tag("a", f"assignment {number + 1}", href="#drawn")
    return m.paragraph("Ticket ", m.tag("b", ticket), " was drawn. It names ", link, ".", class_="drawn-line")


def place_columns(lottery):
    """The columns but `none`."""
    return [column for column, text in enumerate(lottery.columns) if text != "none"]


def drawn(page):
    """The drawn assignment: what each participant gets."""
    if page.drawn is None:
        return ""
    ticket, number = page.drawn
    lottery, piece = page.lottery, page.lottery.pieces[number]
    rows = [[m.name(agent), m.cell(given_text(lottery, gives))] for agent, gives in by_agent(lottery, piece)]
    count, span = m.counted(piece.weight, "ticket", "tickets"), m.tickets_text(piece.first, piece.weight)
    of = f"{ticket} of 0 to {lottery.denominator - 1}"
    said = m.paragraph(f"Ticket {of} names assignment {number + 1}, which has {count}: {span}.")
    return m.section("drawn", "What was drawn", said, m.table("drawn", ["participant", "gets"], rows))


def by_agent(lottery, piece):
    gives = collections.defaultdict(list)
    for agent, column, often in piece.gives:
        gives[agent].append((column, often))
    return [(name, gives[agent]) for agent, name in enumerate(lottery.agents)]


def given_text(lottery, gives):
    """The columns that somebody gets."""
    shown = [m.join([m.column_name(lottery.columns[column]), times(often)]) for column, often in gives]
    return m.join(shown, ", ") if shown else m.tag("i", "nothing")


def times(often):
    return f" × {often}" if often > 1 else ""


def odds(page):
    """Who has which odds."""
    lottery = page.lottery
    is_matrix = len(lottery.columns) <= WIDEST_MATRIX and lottery.denominator <= LONGEST_DENOMINATOR
    said = ["Each cell says how many of the tickets give the place of its column to the participant of its row. "
            if is_matrix else "Each entry says how many of the tickets give the place to the participant. ",
            "The darker it is, the better the odds."]
    if lottery.denominator >= FIRST_WITH_PERCENT:
        said.append(" The percents are the two whole ones between which the odds lie.")
    if page.drawn is not None:
        said.append(" A frame is around what was drawn.")
    if lottery.is_designed():
        said.append(m.join([" ", m.column_name("none"), " stands for no place."]))
    shown = odds_matrix(page) if is_matrix else odds_lists(page)
    return m.section("odds", "Who has which odds", m.paragraph(*said), m.tag("div", shown, class_="wide"))


def drawn_cells(page):
    if page.drawn is None:
        return set()
    return {(agent, column) for agent, column, _ in page.lottery.pieces[page.drawn[1]].gives}


def odds_text(units, denominator):
    """Odds as the lottery has them, and between which whole percents they lie; long numbers come after these."""
    exact = m.tag("span", m.units_text(units, denominator), class_="odds")
    if not units or denominator < FIRST_WITH_PERCENT:
        return exact
    percent = m.tag("span", m.percent_text(units, denominator), class_="percent")
    return m.join([exact, percent] if denominator <= LONGEST_DENOMINATOR else [percent, exact], " ")


def odds_class(units, denominator, is_drawn):
    shown = f"shade-{m.shade(units, denominator)}"
    return f"{shown} framed" if is_drawn else shown


def odds_matrix(page):
    """A row for each participant and a column for each place."""
    lottery, framed = page.lottery, drawn_cells(page)
    rows = []
    for agent, units in enumerate(lottery.units):
        cells = [
            m.cell(odds_text(unit, lottery.denominator), label=lottery.columns[column],
                   class_=odds_class(unit, lottery.denominator, (agent, column) in framed))
            for column, unit in enumerate(units)
        ]
        rows.append([m.name(lottery.agents[agent]), *cells])
    return m.table("odds matrix", ["participant", *map(m.column_name, lottery.columns)], rows)


def odds_lists(page):
    """A row for each participant with the places that it has odds of, the best choice first where lists are known."""
    lottery, framed = page.lottery, drawn_cells(page)
    rows = []
    for agent, units in enumerate(lottery.units):
        order = lottery.lists[agent] if lottery.lists else range(len(units))
        entries = [
            m.tag("li", m.column_name(lottery.columns[column]), " ", odds_text(units[column], lottery.denominator),
                  class_=odds_class(units[column], lottery.denominator, (agent, column) in framed))
            for column in order if units[column]
        ]
        rows.append([m.name(lottery.agents[agent]), m.cell(m.tag("ul", *entries, class_="odds-list"))])
    return m.table("odds lists", ["participant", "odds"], rows)


def places(page):
    """How many get each place: on average, and at least and at most in any assignment."""
    lottery = page.lottery
    counts = [piece_counts(lottery, piece) for piece in lottery.pieces]
    rows = []
    for column, text in enumerate(lottery.columns):
        total = sum(units[column] for units in lottery.units)
        found = [count[column] for count in counts]
        whole, rest = divmod(total, lottery.denominator)
        average = str(whole) if not rest else f"{total}/{lottery.denominator}"
        row = [m.column_name(text), m.cell(average), m.cell(span_text(found))]
        if page.drawn is not None:
            row.append(m.cell(counts[page.drawn[1]][column]))
        rows.append(row)
    head = ["place", "on average", "in each assignment", *(["drawn"] if page.drawn is not None else [])]
    said = m.paragraph("How many get each place, on average over all tickets, and in each single assignment.")
    return m.section("places", "How many get each place", said, m.table("places", head, rows))


def piece_counts(lottery, piece):
    counts = [0] * len(lottery.columns)
    for _, column, often in piece.gives:
        counts[column] += often
    return counts


def span_text(numbers):
    least, most = min(numbers), max(numbers)
    return str(least) if least == most else f"{least} or {most}" if most == least + 1 else f"{least} to {most}"


def rules(page):
    """The rules, and how many of the pairs that each counts stand in an assignment."""
    if page.rules is None:
        return ""
    found = rule_counts(page)
    rows = []
    for number, rule in enumerate(page.rules, 1):
        cells = [rule_text(rule), bounds_text(rule), span_text(found[number - 1])]
        rows.append([str(number), *map(m.cell, cells)])
    head = ["number", "rule", "allows", "in each assignment"]
    said = m.paragraph("What the quotas state, and how much of what each rule counts there is in the assignments.")
    return m.section("rules", "The rules", said, m.tag("div", m.table("rules", head, rows), class_="wide"))


def rule_counts(page):
    """For each rule how much of what it counts is in each assignment."""
    holders = collections.defaultdict(list)
    for number, rule in enumerate(page.rules):
        for pair in rule.cells:
            holders[pair].append(number)
    counts = [[0] * len(page.lottery.pieces) for _ in page.rules]
    for index, piece in enumerate(page.lottery.pieces):
        for agent, column, often in piece.gives:
            for number in holders[agent, column]:
                counts[number][index] += often
    return counts


def bounds_text(rule):
    if rule.floor == rule.ceiling:
        return f"exactly {rule.floor}"
    if rule.floor:
        return f"{rule.floor} to {rule.ceiling}"
    return "any number" if rule.ceiling == 1000 else f"at most {rule.ceiling}"


def rule_text(rule):
    if rule.kind == "object":
        return m.join(["places of ", m.name(rule.name)])
    if rule.kind == "agent":
        return m.join(["what ", m.name(rule.name), " gets"])
    counted = (m.join([everyone(agents), " at ", anything(columns)]) for agents, columns in rule.counts)
    return m.join([m.name(rule.name), m.tag("small", m.join(counted, "; "), class_="counts")])


def everyone(text):
    return "all" if text == "*" else m.name(text)


def anything(text):
    return "all places" if text == "*" else m.name(text)


def assignments(page):
    """Each whole assignment with its tickets."""
    parts = m.join_lines(piece_section(page, number) for number in range(len(page.lottery.pieces)))
    said = m.paragraph("A ticket names the assignment in whose range it lies.")
    return m.section("assignments", "The whole assignments", said, m.tag("div", *parts, class_="pieces"))


def piece_section(page, number):
    lottery, piece = page.lottery, page.lottery.pieces[number]
    takers = collections.defaultdict(list)
    for agent, column, often in piece.gives:
        takers[column].append(f"{lottery.agents[agent]}{times(often)}")
    rows = [[m.column_name(lottery.columns[column]), m.cell(m.names(takers[column]))] for column in sorted(takers)]
    is_drawn = page.drawn is not None and page.drawn[1] == number
    title = m.tag("h3", f"Assignment {number + 1}", m.tag("span", " – drawn", class_="mark") if is_drawn else "")
    span = m.tag("b", m.tickets_text(piece.first, piece.weight), class_="range")
    weight = m.tag("span", f" {piece.weight} of {lottery.denominator}", class_="weight")
    said = m.paragraph("tickets " if piece.weight > 1 else "ticket ", span, weight, class_="tickets")
    lines = m.join_lines(m.tag("tr", m.tag("th", row[0], scope="row"), row[1]) for row in rows)
    shown = m.tag("table", m.tag("tbody", *lines), class_="piece")
    look = "piece framed" if is_drawn else "piece"
    return m.tag("article", title, said, shown, id=f"piece-{number + 1}", class_=look)


def tickets(page):
    """For each participant the tickets that give each place."""
    lottery = page.lottery
    title = "Which tickets give whom what"
    if len(lottery.agents) * len(lottery.pieces) > MOST_TICKET_CELLS:
        said = m.paragraph("This list would be too long here. The assignments have the same.")
        return m.section("tickets", title, said)
    said = m.paragraph("The same by participant. How many tickets there are in all is in brackets: the odds.")
    found = zip(lottery.agents, all_ranges(lottery))
    rows = [[m.name(name), m.cell(ticket_list(lottery, ranges))] for name, ranges in found]
    return m.section("tickets", title, said, m.table("tickets", ["participant", "tickets"], rows))


def all_ranges(lottery):
    """For each agent, by column and how often it is given, the ranges of tickets; ranges that touch are one."""
    found = [collections.defaultdict(list) for _ in lottery.agents]
    for piece in lottery.pieces:
        for agent, column, often in piece.gives:
            ranges = found[agent][column, often]
            if ranges and sum(ranges[-1]) == piece.first:
                ranges[-1] = (ranges[-1][0], ranges[-1][1] + piece.weight)
            else:
                ranges.append((piece.first, piece.weight))
    return found


def ticket_list(lottery, ranges):
    entries = []
    for (column, often), spans in sorted(ranges.items()):
        shown = ", ".join(m.tickets_text(first, weight) for first, weight in spans)
        total = sum(weight for _, weight in spans)
        what = [m.column_name(lottery.columns[column]), times(often)]
        entries.append(m.tag("li", *what, ": ", m.tag("span", shown, class_="range"), f" ({total})"))
    return m.tag("ul", *entries, class_="ticket-list")


def checks(page):
    """The checksums of the files, and the commands that check and draw again."""
    files = page.files.values()
    rows = [[m.tag("span", file.shown), m.cell(m.tag("code", file.sha256), class_="sum")] for file in files]
    said = m.paragraph(
        "Each file below has its SHA-256, which ", m.tag("code", "sha256sum FILE"), " writes again. A file in which "
        "one letter is changed has another one."
    )
    steps = (
        m.join([m.tag("dt", what), m.tag("dd", m.tag("code", command))]) for what, command in page.commands()
    )
    own = m.paragraph(
        "Without any program: the tickets of all assignments add up to ", m.tag("b", page.lottery.denominator),
        "; in each assignment count who gets each place; and for yourself, add up the tickets of the assignments "
        "that give you a place: those must be your odds."
    )
    sums = m.table("sums", ["file", "SHA-256"], rows)
    return m.section("checks", "Check it yourself", said, sums, m.tag("dl", *steps), own)
