#!/usr/bin/env python3
"""The runs at the limits of the inputs.

limit_cases.py write: writes the inputs into the current folder, and beside them what a run must write.
    lists.csv, quotas.csv    1,000 agents, 200 objects, and 400 sets with 300,000 cells; sets.csv and table.csv are due, and of
        their lottery head.csv, which is all before the first piece, and envies.csv
    choices.csv, places.csv  180 agents and 20 objects, with a guarded family of 2,000 sets
    shares.csv, rows.csv     a matrix of 1,000 by 200 shares, and 1,000 sets with 420,000 cells for it
    chain.csv    1,000 sets of one side for it, of which each crosses the next, with 300,000 cells; sides.csv is due, and of the
        empty matrix nothing.csv none.csv, a lottery without gives
    lottery.csv              a lottery of 67,108,864 bytes; first.csv and last.csv are due for its first and last ticket, and
        summary.json is its summary
    pact.csv     a pact of 1,000 parties, and seed.csv with the seed that it makes
    long_lists.csv, long_quotas.csv    1,000 agents and 11 objects with the longest names, whose lottery has more bytes than are read
limit_cases.py check: reads a lottery for shares.csv and rows.csv from standard input, and ends with 0 where its pieces add up to
    its rows and each of them keeps every quota; else it says what is wrong and ends with 1.
limit_cases.py solved: the same of a lottery for lists.csv and quotas.csv.
"""

import hashlib
import sys
from collections import Counter

AGENTS = 1000
OBJECTS = 200
CHANCES = 20
# What the recipe of prices calls so: two more than there are objects, since `none` is on the lists too.
WIDTH = OBJECTS + 2
ROWS_STATED = AGENTS - 2 * OBJECTS
FILE_LIMIT = 67108864


def write(name, records):
    with open(name, "w", encoding="utf-8") as file:
        file.writelines(f"{record}\n" for record in records)


def columns():
    return range(1, OBJECTS + 1)


def agents():
    return range(1, AGENTS + 1)


def numbered(word, numbers):
    return ",".join(f"{word}{number}" for number in numbers)


def around(first):
    """All objects in order from this one on, and after the last the first."""
    return [(first - 1 + step) % OBJECTS + 1 for step in range(OBJECTS)]


def first_choice(agent):
    return (agent - 1) % OBJECTS + 1


def write_lists():
    """Agent i likes the objects in order from the one of its number on, so each object is the first choice of five agents, which
    are all of odd number where the object is."""
    write("lists.csv", ["agent,choices", *(f"p{agent},{numbered('s', around(first_choice(agent)))}" for agent in agents())])


def odd_sets(quotas):
    """For each object the agents of odd number, with these quotas."""
    yield f"group,odd,{numbered('p', range(1, AGENTS + 1, 2))}"
    for column in columns():
        yield f"set,odd s{column},2,{quotas}"
        yield f"in,odd s{column},odd,s{column}"


def write_quotas():
    write("quotas.csv", [*(f"object,s{column},,4" for column in columns()), *odd_sets(",2")])


def write_sets():
    wholes = [f"set,{column},2,0,4,{AGENTS},0" for column in columns()]
    odds = [f"set,{OBJECTS + column},2,0,2,{AGENTS // 2},{column}" for column in columns()]
    write("sets.csv", [*wholes, *odds, f"end,{2 * OBJECTS}"])


def eaten(agent):
    """In fifths, by column. At 2/5 the set of an odd object is full, since five of odd number eat there. They go on with the next
    object, where ten eat from then on, so that its 4 units are gone at 3/5; nothing is left to them but `none`. The five of even
    number go on with the next object, which has 2 units left, enough for the rest of the time."""
    units = [0] * (OBJECTS + 1)
    own, following = around(first_choice(agent))[:2]
    units[own - 1], units[following - 1], units[OBJECTS] = (2, 1, 2) if agent % 2 else (3, 2, 0)
    return units


def named_rows():
    return [f"row,p{agent},{','.join(map(str, eaten(agent)))}" for agent in agents()]


def write_table():
    wholes = [f"moment,{column},{5 if column % 2 else 3}" for column in columns()]
    odds = [f"moment,{OBJECTS + column},{2 if column % 2 else 5}" for column in columns()]
    head = ["table,1", "denominator,5", f"objects,{numbered('s', columns())},none"]
    write("table.csv", [*head, *wholes, *odds, *named_rows(), f"end,{AGENTS}"])


def write_envies():
    """An agent of odd number has 3 fifths of objects, all in the first two places of its list, and one of even number has 5. So each of
    odd number envies each of even number, at the first place up to which the other has all."""
    envies = []
    for agent in range(1, AGENTS + 1, 2):
        places = {column: place for place, column in enumerate(around(first_choice(agent)), 1)}
        for other in range(2, AGENTS + 1, 2):
            place = max(places[column] for column in around(first_choice(other))[:2])
            envies.append(f"envy,p{agent},p{other},{place},3,5")
    write("envies.csv", [*envies, f"end,{len(envies)}"])


def write_guarded():
    """Each object is the first of nine choices of nine agents, who are due two units each. The first is theirs; of the next there is
    enough for two thirds of a unit each. With 20 columns and 180 rows the ten sets of first places of each make 2,000."""
    first = [[(agent + step) % 20 + 1 for step in range(9)] for agent in range(180)]
    write("choices.csv", ["agent", *(f"p{agent},{numbered('s', choices)}" for agent, choices in enumerate(first, 1))])
    write("places.csv", [*(f"object,s{column},,15" for column in range(1, 21)), *(f"agent,p{agent},2,2" for agent in range(1, 181))])


def prices():
    """The moments 2/5 and 3/5 have the numbers 1 and 2. So the rank of an odd object is 3, and that of its agents of odd number 1;
    the rank of an even object is 2, and that of its agents of odd number is 2 too."""
    wholes = [0 if column % 2 else WIDTH for column in columns()]
    odds = [2 * WIDTH if column % 2 else 0 for column in columns()]
    return [*wholes, *odds]


def worths(agent):
    """Along the list. An agent of odd number has two objects and `none`, and one of even number two objects alone."""
    if agent % 2:
        return [2 * WIDTH, WIDTH, *range(OBJECTS - 2, -1, -1)]
    return [WIDTH, 0, *range(-1, -OBJECTS, -1)]


def write_head():
    head = ["lottery,1", "denominator,5", f"agents,{numbered('p', agents())}", f"objects,{numbered('s', columns())},none"]
    priced = [f"price,{number},{price}" for number, price in enumerate(prices(), 1)]
    places = {agent: [*(f"s{column}" for column in around(first_choice(agent))), "none"] for agent in agents()}
    valued = [f"worth,p{agent},{place},{worth}" for agent in agents() for place, worth in zip(places[agent], worths(agent), strict=True)]
    write("head.csv", [*head, *named_rows(), *priced, *valued])


def shares_of(agent):
    """By column, in parts of one in CHANCES: an agent has equal shares of the objects from the one of its number on. So each object has
    5 units in all, and 2 1/2 of them among the agents of odd number."""
    own = set(around(first_choice(agent))[:CHANCES])
    return [int(column in own) for column in columns()]


def write_shares():
    rows = [[f"1/{CHANCES}" if share else "" for share in shares_of(agent)] for agent in agents()]
    named = [f"p{agent},{','.join(row)}" for agent, row in zip(agents(), rows)]
    write("shares.csv", [f"agent,{numbered('s', columns())}", *named])
    objects = [f"object,s{column},5,5" for column in columns()]
    stated = [f"agent,p{agent},1,1" for agent in range(1, ROWS_STATED + 1)]
    write("rows.csv", [*objects, *stated, *odd_sets("2,3")])


def cell_names(place):
    """The agent and the object of a cell, by its place in the matrix row by row."""
    return f"p{place // OBJECTS + 1},s{place % OBJECTS + 1}"


def write_chain():
    """Set k has 300 cells in a row, of which the second half is the first half of the next set."""
    half, count = 150, 1000
    stated = [f"set,chain {number},1" for number in range(1, count + 1)]
    members = (f"in,chain {number},{cell_names(half * (number - 1) + step)}" for number in range(1, count + 1) for step in range(2 * half))
    write("chain.csv", [*stated, *members])
    write("sides.csv", [*(f"side,{number},{2 - number % 2}" for number in range(1, count + 1)), f"end,{count}"])
    write("nothing.csv", [f"agent,{numbered('s', columns())}", *(f"p{agent}" for agent in agents())])
    zeros = ",0" * OBJECTS
    head = ["lottery,1", "denominator,1", f"agents,{numbered('p', agents())}", f"objects,{numbered('s', columns())}"]
    write("none.csv", [*head, *(f"row,p{agent}{zeros}" for agent in agents()), "piece,1,1", "end,1"])


def piece(number, names, places):
    """The piece of this number, of weight 1: each agent gets one place, and from piece to piece it is the next one."""
    gives = [f"give,{name},{places[(index + number) % OBJECTS]},1" for index, name in enumerate(names)]
    return [f"piece,{number},1", *gives]


def write_lottery():
    """Pieces of weight 1, of which each agent has each object in equally many. Blank lines fill the file up to the limit."""
    names = [f"participant-{agent:04}" for agent in agents()]
    places = [f"spot-{column:03}" for column in columns()]
    pieces = 10 * OBJECTS
    units = ",".join(["10"] * OBJECTS)
    head = ["lottery,1", f"denominator,{pieces}", f"agents,{','.join(names)}", f"objects,{','.join(places)}"]
    rows = [f"row,{name},{units}" for name in names]
    with open("lottery.csv", "w", encoding="utf-8") as file:
        file.writelines(f"{record}\n" for record in [*head, *rows])
        for number in range(1, pieces + 1):
            file.writelines(f"{record}\n" for record in piece(number, names, places))
        file.write(f"end,{pieces}\n")
        file.write("\n" * (FILE_LIMIT - file.tell()))
    expected = ",".join(f'"{place}":"{10 * AGENTS}"' for place in places)
    weights = '"greatest_weight":"1","least_weight":"1"'
    sizes = f'"agents":{AGENTS},"columns":{OBJECTS},"denominator":"{pieces}"'
    write("summary.json", [f'{{{sizes},"expected":{{{expected}}},{weights},"pieces":{pieces},"priced":false}}'])
    for name, number in ("first.csv", 1), ("last.csv", pieces):
        write(name, [f"ticket,{number - 1},{pieces}", *piece(number, names, places), f"end,{AGENTS}"])


def write_pact():
    """Who commits last reveals first."""
    parties = [(f"party-{number:04}", hashlib.sha256(b"%d" % number).digest()) for number in agents()]
    hashed = [hashlib.sha256(name.encode() + b"\0" + contribution).hexdigest() for name, contribution in parties]
    commits = [f"commit,{name},{digits}" for (name, _), digits in zip(parties, hashed)]
    reveals = [f"reveal,{name},{contribution.hex()}" for name, contribution in reversed(parties)]
    write("pact.csv", ["pact,1", *commits, *reveals])
    seed = hashlib.sha256(b"".join(contribution for _, contribution in parties)).hexdigest()
    write("seed.csv", [f"seed,{seed}"])


def long_name(word, number):
    """A name of 64 bytes."""
    return f"{word}{number} ".ljust(64, "x")


def hashed_order(agent, columns_in_all):
    """The columns in an order that differs from agent to agent."""
    return sorted(range(1, columns_in_all + 1), key=lambda column: hashlib.sha256(b"%d,%d" % (agent, column)).digest())


def write_long():
    """A give has 137 bytes, and each agent has one in each piece, `none` among them: 500 pieces are more than 64 MiB."""
    objects = 11
    lists = {agent: ",".join(long_name("s", column) for column in hashed_order(agent, objects)[:5]) for agent in agents()}
    write("long_lists.csv", ["agent,choices", *(f"{long_name('p', agent)},{line}" for agent, line in lists.items())])
    write("long_quotas.csv", [f"object,{long_name('s', column)},,{80 + column}" for column in range(1, objects + 1)])


def need(holds, what):
    if not holds:
        sys.exit(what)


def read_lottery(lines):
    """The denominator, the units by agent and object, and the pieces: a weight and the given pairs of agent and object."""
    units, pieces, denominator, objects = {}, [], 0, []
    kind, fields = "", []
    for line in lines:
        kind, *fields = line.rstrip("\n").split(",")
        if kind == "denominator":
            denominator = int(fields[0])
        elif kind == "objects":
            objects = fields
        elif kind == "row":
            units.update(((fields[0], name), int(field)) for name, field in zip(objects, fields[1:], strict=True))
        elif kind == "piece":
            pieces.append((int(fields[1]), []))
        elif kind == "give":
            need(fields[2] == "1", f"piece {len(pieces)} gives more than one of an object")
            pieces[-1][1].append((fields[0], fields[1]))
    need(kind == "end" and fields == [str(len(pieces))], "the last record isn't the number of pieces")
    return denominator, units, pieces


def check_ceilings(number, gives):
    """Of each object at most 4, and 2 to agents of odd number; and to each agent one place or `none`."""
    objects = Counter(name for _, name in gives)
    odd = Counter(name for agent, name in gives if int(agent[1:]) % 2)
    for name in (f"s{column}" for column in columns()):
        need(objects[name] <= 4 and odd[name] <= 2, f"piece {number} breaks a quota of {name}")
    need([agent for agent, _ in gives] == [f"p{agent}" for agent in agents()], f"piece {number} doesn't give each agent one place")


def check_quotas(number, gives):
    """Of each object 5, 2 or 3 of them to agents of odd number; and one to each agent whose row is stated."""
    objects = Counter(name for _, name in gives)
    odd = Counter(name for agent, name in gives if int(agent[1:]) % 2)
    takers = Counter(agent for agent, _ in gives)
    for name in (f"s{column}" for column in range(1, OBJECTS + 1)):
        need(objects[name] == 5 and odd[name] in (2, 3), f"piece {number} breaks a quota of {name}")
    for agent in (f"p{agent}" for agent in range(1, ROWS_STATED + 1)):
        need(takers[agent] == 1, f"piece {number} breaks the quotas of {agent}")


def check_lottery():
    due = {(f"p{agent}", f"s{column}"): share for agent in agents() for column, share in zip(columns(), shares_of(agent))}
    check_pieces(CHANCES, due, check_quotas)


def check_solved():
    names = [*(f"s{column}" for column in columns()), "none"]
    due = {(f"p{agent}", name): share for agent in agents() for name, share in zip(names, eaten(agent), strict=True)}
    check_pieces(5, due, check_ceilings)


def check_pieces(parts, due, keeps_quotas):
    """The lottery on standard input has these units over so many parts, and its pieces add up to them."""
    denominator, units, pieces = read_lottery(sys.stdin)
    need(denominator == parts and units == due, "the rows aren't the shares")
    need(sum(weight for weight, _ in pieces) == denominator, "the weights don't add up")
    given = Counter()
    for number, (weight, gives) in enumerate(pieces, 1):
        need(weight >= 1 and len(set(gives)) == len(gives), f"piece {number} has no weight, or a give twice")
        keeps_quotas(number, gives)
        for pair in gives:
            given[pair] += weight
    need(all(given[pair] == unit for pair, unit in units.items()), "the pieces don't add up to the rows")
    need(len({tuple(gives) for _, gives in pieces}) == len(pieces), "two pieces are equal")


def write_inputs():
    write_lists()
    write_quotas()
    write_sets()
    write_table()
    write_envies()
    write_guarded()
    write_head()
    write_shares()
    write_chain()
    write_lottery()
    write_pact()
    write_long()


if __name__ == "__main__":
    {"write": write_inputs, "check": check_lottery, "solved": check_solved}[sys.argv[1]]()
