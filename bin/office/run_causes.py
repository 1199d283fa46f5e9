"""The likeliest cause of a refusal that isn't one record's fault: the words, the files, what they state together."""

import os
import re
from fractions import Fraction
from math import lcm

from office import documents, names
from office.input_causes import SHARE
from office.stated import below_header

GREATEST = 2**116


def usage(run):
    """What of the words fits no command."""
    forms = documents.commands(run.page)
    listed = "; docs/COMMANDS.md has the commands " + ", ".join(f"`{' '.join(it)}`" for it in forms)
    if not run.words:
        return "no words were given" + listed
    if run.command is None:
        other = names.nearest(run.words[0], [it[0] for it in forms])
        return f"there is no command {names.shown(run.words[0])}" + (f"; `{other}` is near" if other else listed)
    if len(run.form) != len(run.words) - 1:
        due = f"{len(run.form)} words, `{' '.join(run.form)}`"
        return f"`{run.command}` takes {due}, and was given {len(run.words) - 1}"
    for word, meant in zip(run.words[1:], run.form):
        wrong = wrong_word(word, meant)
        if wrong:
            return f"{meant} is {names.shown(word)}: {wrong}"
    return "a word isn't UTF-8"


def wrong_word(word, meant):
    """Why a word can't be what it is meant to be, or None."""
    if meant == "NAME":
        return names.fault(word)
    if meant in ("SEED", "CONTRIBUTION") and not re.fullmatch(r"[0-9A-Fa-f]{64}", word):
        if len(word) != 64:
            return f"a {meant.lower()} has 64 hex digits, and this has {len(word)} characters"
        return f"a {meant.lower()} has the digits 0 to 9 and a to f alone"
    if meant in ("TICKET", "AGENTS", "OBJECTS"):
        if not re.fullmatch(r"[0-9]+", word):
            return "it is no whole number"
        most = {"TICKET": 2**128 - 1, "AGENTS": 1000, "OBJECTS": 200}[meant]
        if int(word) > most or meant != "TICKET" and int(word) < 1:
            return f"it is to be from {0 if meant == 'TICKET' else 1} to {most:,}"
    return None


def read(run, number):
    """Why a file can't be read."""
    path = run.path(number)
    if os.path.isdir(path):
        return "it is a folder"
    if os.path.exists(path):
        return "it is there, and may not be read: look at its rights"
    folder = os.path.dirname(path) or "."
    if not os.path.isdir(folder):
        return f"there is no folder {folder}"
    near = names.nearest(os.path.basename(path), sorted(os.listdir(folder)))
    return "there is no such file" + (f"; {os.path.join(os.path.dirname(path), near)} is near" if near else "")


def too_long(run, number):
    return f"it has {os.path.getsize(run.path(number)):,} bytes"


def the_set(run, number):
    """A set by its number, with its name and line."""
    if not 0 < number <= len(run.known.numbered):
        return f"set {number}"
    one = run.known.numbered[number - 1]
    return f"set {number}, {names.shown(one.name)} on line {one.record.line} of {run.path(run.number_of('QUOTAS'))}"


def crossing(run, one, other):
    """Two sets that overlap in part, with a pair that both count, and a pair that each counts alone."""
    found = run.known.numbered
    if max(one, other) > len(found):
        return None
    cells, others = found[one - 1].cells, found[other - 1].cells
    told = [f"{the_set(run, one)}, and {the_set(run, other)}"]
    for what, some in (("both count", cells & others), ("only the first counts", cells - others),
                       ("only the second counts", others - cells)):
        if some:
            agent, thing = min(some)
            told.append(f"{what} {names.shown(agent)} at {names.shown(thing)}")
    return "; ".join(told)


def shares(run):
    """The shares of a matrix, row by row: agent, object, share. Those that aren't lawful are left out."""
    header = next((it for it in run.records_of("MATRIX") if it.fields), None)
    for record in below_header(run.records_of("MATRIX")):
        for name, text in zip(header.fields[1:], record.fields[1:]):
            if text and SHARE.fullmatch(text):
                yield record, name, Fraction(text)


def infeasible(run, number, total):
    """A set whose shares add up to less than its floor, or more than its ceiling."""
    bottom = lcm(*[share.denominator for _, _, share in shares(run)])
    one = run.known.numbered[number - 1] if 0 < number <= len(run.known.numbered) else None
    if one is None:
        return None
    between = f"between {one.floor or 0} and {one.ceiling or '1,000'}"
    return f"{the_set(run, number)}: its shares add up to {Fraction(total, bottom)}, and they are to be {between}"


def over_total(run, agent, column):
    """The entry at which the sum of all shares passes 1,000."""
    rows = below_header(run.records_of("MATRIX"))
    if not 0 < agent <= len(rows):
        return None
    found = names.shown(rows[agent - 1].fields[0])
    return f"the shares pass 1,000 at {found}, line {rows[agent - 1].line}, in cell {column + 1}"


def too_fine(run, denominator):
    """For shares the entry that makes the denominator pass its limit; for lists what the denominator is."""
    bottom = 1
    for record, name, share in shares(run):
        bottom = lcm(bottom, share.denominator)
        if bottom > GREATEST:
            agent = names.shown(record.fields[0])
            return f"the share {share} of {agent} at {names.shown(name)}, line {record.line}, makes it pass 2^116"
    return f"the odds would need the denominator {int(denominator):,}"


def over_guard(run, sets):
    """How many of the sets are places of the lists, and how many are not."""
    places = sum(1 + sum(1 for it in record.fields[1:] if it) for record in run.known.agents.values())
    others = f"{sets - places:,} are not"
    return f"{places:,} of the sets are places of the lists, with `none` at the end of each; {others}"


def ticket(denominator):
    return f"tickets of this lottery go from 0 to {int(denominator) - 1:,}"


def audit(run, check, numbers):
    """The numbers of a failed check with their meaning, and names in place of numbers where they are known."""
    agent, told = None, []
    for field, number in zip([it.strip() for it in check.remedy.split(",")], numbers):
        name = name_of(run, field, number, agent)
        agent = name if field == "agent" else agent
        told.append(f"{field} {number}" + (f" is {names.shown(name)}" if name else ""))
    return "; ".join(told)


def name_of(run, field, number, agent):
    """The name that a number of a failed check stands for: of an agent, a column, a set, or a place of a list."""
    agents = list(run.known.agents)
    choices = run.known.agents[agent].fields[1:] if agent and not run.known.with_matrix else ()
    listed = {
        "agent": agents,
        "column": [*run.known.objects, "none"],
        "set": [*[it.name for it in run.known.numbered], *agents],
        "place": [it for it in choices if it],
        "other": [it for it in choices if it],
    }.get(field, [])
    return listed[number - 1] if 0 < number <= len(listed) else None
