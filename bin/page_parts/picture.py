"""The picture of how the odds came about: for each participant a bar from moment 0 to 1, in the colours of what it
eats.

Everything is drawn as SVG in the page. Places are percentages cut to two digits; the exact moments stand in the
titles of the parts and in the list below the bars.
"""

import collections
import unicodedata
from fractions import Fraction

from . import markup as m
from .sections import rule_text

COLOURS = 10
HATCHES = 3
# Lines through the bars are drawn up to so many moments; more would hide what they cross.
MOST_LINES = 40
# With more participants than this it is said how many go on, and not who.
MOST_NAMED = 200
# Two letters above the bars that are nearer than this stand on two lines.
NEAR = Fraction(4, 100)
LINES_OF_LETTERS = 4
BAR = 26


def segments(lottery, agent):
    """What an agent eats one after another: a column, and from which moment to which."""
    demand = lottery.demand(agent)
    start = Fraction(0)
    for column in lottery.lists[agent]:
        if lottery.units[agent][column]:
            end = start + Fraction(lottery.units[agent][column], lottery.denominator) / demand
            yield column, start, end
            start = end


def eating(page):
    """The whole section, where a table is given."""
    if page.moments is None:
        return ""
    lottery = page.lottery
    full = full_moments(page)
    bars = [list(segments(lottery, agent)) for agent in range(len(lottery.agents))]
    several = any(lottery.demand(agent) > 1 for agent in range(len(bars)))
    said = m.paragraph(
        "Think of each place as a loaf with as many slices as there are places. Everybody eats from moment 0 to "
        "moment 1, always of the best place of their own list that still has something for them, and each eats one "
        "slice in that time",
        " (or as many as they are to get places, and at most one slice of each)" if several else "",
        ". When a place is eaten up, or a rule is full, those who ate there go on to their next choice. What "
        "somebody has eaten of a place is their chance of getting it. The letters are the moments at which a rule is "
        "full.",
    )
    lines = [axis(full), *(bar(lottery, agent, parts, full) for agent, parts in enumerate(bars))]
    drawing = m.tag("div", hatches(), legend(lottery), *m.join_lines(lines), class_="eating")
    return m.section("eating", "How the odds came about", said, drawing, moment_list(page, bars, full))


def full_moments(page):
    """The moments before the end at which rules are full, in order, each with the numbers of its rules."""
    found = collections.defaultdict(list)
    for number, moment in enumerate(page.moments, 1):
        if moment < page.lottery.denominator:
            found[Fraction(moment, page.lottery.denominator)].append(number)
    return sorted(found.items())


def letter(index):
    """A, B, .. Z, AA, AB, .."""
    high, low = divmod(index, 26)
    return (letter(high - 1) if high else "") + chr(ord("A") + low)


def look(column, lottery):
    """The classes of a column's colour and hatch; `none` has a look of its own."""
    if lottery.columns[column] == "none":
        return "eat-none", None
    hatch = column // COLOURS % HATCHES
    return f"eat-{column % COLOURS}", f"hatch-{hatch}" if hatch else None


def hatches():
    """Patterns over the colours, for more places than there are colours."""
    stripe = m.tag("path", d="M0 8 L8 0", class_="stroke")
    dot = m.tag("circle", cx=3, cy=3, r="1.4", class_="dot")
    patterns = [
        m.tag("pattern", stripe, id="hatch-1", width=8, height=8, patternUnits="userSpaceOnUse"),
        m.tag("pattern", dot, id="hatch-2", width=7, height=7, patternUnits="userSpaceOnUse"),
    ]
    return m.tag("svg", m.tag("defs", *patterns), width=0, height=0, class_="hatches", aria_hidden="true")


def box(column, lottery, **place):
    colour, hatch = look(column, lottery)
    over = m.tag("rect", fill=f"url(#{hatch})", **place) if hatch else ""
    return m.join([m.tag("rect", class_=colour, **place), over])


def legend(lottery):
    """The colours with the numbers and names of the columns."""
    entries = []
    for column, text in enumerate(lottery.columns):
        swatch = box(column, lottery, x=0, y=0, width=26, height=18)
        number = m.tag("text", column + 1, x=13, y=13, class_="inside")
        drawing = m.tag("svg", swatch, number, width=26, height=18, aria_hidden="true")
        entries.append(m.tag("li", drawing, " ", m.column_name(text)))
    return m.tag("ul", *entries, class_="legend")


def letter_lines(moments):
    """On which line above the bars each letter stands, from 0, so that those on one line are not too near."""
    last, lines = [Fraction(0)] + [-NEAR] * (LINES_OF_LETTERS - 1), []
    for index, moment in enumerate(moments):
        line = next((line for line, other in enumerate(last) if moment - other >= NEAR), index % LINES_OF_LETTERS)
        last[line] = moment
        lines.append(line)
    return lines


def axis(full):
    """The letters of the moments above the bars; those that would touch stand on lines of their own."""
    lines = letter_lines([moment for moment, _ in full[:MOST_LINES]])
    height = 14 * max(lines, default=0) + 20
    ends = (("0", "0%", "start"), ("1", "100%", "end"))
    parts = [m.tag("text", text, x=x, y=height - 4, class_=side) for text, x, side in ends]
    for index, (line, (moment, _)) in enumerate(zip(lines, full)):
        x, y = m.position(moment), height - 4 - 14 * line
        parts.append(m.tag("line", x1=x, x2=x, y1=y + 2, y2=height, class_="moment"))
        parts.append(m.tag("text", letter(index), x=x, y=y, class_="letter"))
    drawing = m.tag("svg", *parts, height=height, aria_hidden="true")
    return m.tag("div", m.tag("span", "moment", class_="who"), drawing, class_="eater axis")


def width_of(text):
    """About how wide a text is, in letters."""
    letters = (char for char in text if not unicodedata.combining(char))
    return sum(2 if unicodedata.east_asian_width(char) in "WF" else 1 for char in letters)


def label(column, text, width):
    """The name where there is room for it even in a narrow window, else the number, or nothing."""
    if width_of(text) * Fraction(28, 1000) + Fraction(2, 100) <= width:
        return text
    return str(column + 1) if width >= Fraction(5, 100) else ""


def bar(lottery, agent, parts, full):
    """One participant's bar; the title of each part has its exact moments."""
    drawn, inside, told = [], [], []
    for column, start, end in parts:
        text = lottery.columns[column]
        moments = f"{m.moment_text(start, lottery.denominator)} to {m.moment_text(end, lottery.denominator)}"
        shown = box(column, lottery, x=m.position(start), y=0, width=m.position(end - start), height=BAR)
        middle = m.position((start + end) / 2)
        inside.append(m.tag("text", label(column, text, end - start), x=middle, y=BAR - 8, class_="inside"))
        drawn.append(m.tag("g", m.tag("title", f"{text}: {moments}"), shown))
        told.append(f"{text} from {moments}")
    for moment, _ in full[:MOST_LINES]:
        x = m.position(moment)
        drawn.append(m.tag("line", x1=x, x2=x, y1=0, y2=BAR, class_="moment"))
    who = lottery.agents[agent]
    picture = m.tag("svg", *drawn, *inside, height=BAR, role="img", aria_label=f"{who} eats {', '.join(told)}")
    return m.tag("div", m.tag("span", m.name(who), class_="who"), picture, class_="eater")


def moment_list(page, bars, full):
    """Each moment with the rules that are full, and who goes on from where to where."""
    denominator = page.lottery.denominator
    entries = []
    for index, (moment, numbers) in enumerate(full):
        what = [m.paragraph(*full_line(page, number)) for number in numbers]
        at = m.tag("dt", m.tag("b", letter(index)), " ", m.moment_text(moment, denominator))
        entries.append(m.join([at, m.tag("dd", *what, goings(page, bars, moment, numbers))]))
    later = sum(1 for moment in page.moments if moment == denominator)
    rest = m.paragraph(m.counted(later, "rule isn't", "rules aren't"), " full before the end.") if later else ""
    return m.join([m.tag("dl", *entries, class_="moments") if entries else "", rest])


def full_line(page, number):
    if page.rules is None:
        return [f"Rule {number} is full."]
    return [f"Rule {number} is full: ", rule_text(page.rules[number - 1])]


def goings(page, bars, moment, numbers):
    """Who goes on at this moment, by where they come from and where they go, and whether no rule is the reason."""
    lottery, moved = page.lottery, collections.defaultdict(list)
    for agent, parts in enumerate(bars):
        for (column, _, end), (after, _, _) in zip(parts, parts[1:]):
            if end == moment:
                moved[column, after, is_sated(page, agent, column, numbers)].append(lottery.agents[agent])
    lines = []
    for (column, after, sated), who in sorted(moved.items()):
        way = [m.column_name(lottery.columns[column]), " to ", m.column_name(lottery.columns[after])]
        why = ", after a whole place" if sated else ""
        shown = m.names(who) if len(who) <= MOST_NAMED else m.counted(len(who), "participant", "participants")
        lines.append(m.tag("li", "From ", *way, why, ": ", shown))
    return m.tag("ul", *lines, class_="goings") if lines else ""


def is_sated(page, agent, column, numbers):
    """Whether an agent with several places leaves a column since it has had one place of it, and not for a rule."""
    lottery = page.lottery
    whole = lottery.demand(agent) > 1 and lottery.units[agent][column] == lottery.denominator
    known = page.rules is not None
    return whole and not (known and any((agent, column) in page.rules[number - 1].cells for number in numbers))
