#!/usr/bin/env python3
"""Counts, for each way of docs/DRAW.md to make a digit or a ticket, how often each comes when every throw comes once.

Ends with 1 where one comes more often than another.
"""

import collections
import itertools
import sys

DENOMINATORS = (6, 90, 100)
HEX_DIGITS = "0123456789abcdef"


def digit_of_coins(coins):
    """Four coins, heads 1 and tails 0, the first counting 8."""
    return HEX_DIGITS[8 * coins[0] + 4 * coins[1] + 2 * coins[2] + coins[3]]


def digit_of_dice(dice):
    """Two dice, by the table of the document; None is thrown again."""
    place = 6 * (dice[0] - 1) + dice[1] - 1
    return HEX_DIGITS[place % 16] if place < 32 else None


def digit_of_die_and_coin(throw):
    """A die and a coin as a decimal digit; a six is thrown again."""
    die, coin = throw
    return str(die - 1 + 5 * coin) if die < 6 else None


def ticket_of_digits(denominator):
    """As many decimal digits as the last ticket has; a number past the end is thrown again."""

    def ticket(digits):
        number = int("".join(digits))
        return number if number < denominator else None

    return ticket


def candidate_of_bits(denominator):
    """The lowest bits of a candidate of a seed, as `draw` takes them; one past the end is passed over."""

    def ticket(bits):
        number = int("".join(bits), 2)
        return number if number < denominator else None

    return ticket


def is_even(what, throws, result, wanted):
    """Whether exactly the wanted results come, all equally often."""
    found = collections.Counter(map(result, throws))
    thrown = found.total()
    again = found.pop(None, 0)
    often = sorted(set(found.values()))
    print(f"{what}: of {thrown} throws {' or '.join(map(str, often))} for each of {len(found)}, {again} thrown again")
    return set(found) == set(wanted) and len(often) == 1


def main():
    coin, die = (0, 1), range(1, 7)
    even = [
        is_even("a hex digit by four coins", itertools.product(coin, repeat=4), digit_of_coins, HEX_DIGITS),
        is_even("a hex digit by two dice", itertools.product(die, repeat=2), digit_of_dice, HEX_DIGITS),
        is_even("a decimal digit by a die and a coin", itertools.product(die, coin), digit_of_die_and_coin, "0123456789"),
    ]
    for denominator in DENOMINATORS:
        last = denominator - 1
        digits = itertools.product("0123456789", repeat=len(str(last)))
        bits = itertools.product("01", repeat=last.bit_length())
        tickets = range(denominator)
        even.append(is_even(f"a ticket of {denominator} by digits", digits, ticket_of_digits(denominator), tickets))
        even.append(is_even(f"a ticket of {denominator} by a seed's candidate", bits, candidate_of_bits(denominator), tickets))
    sys.exit(0 if all(even) else 1)


main()
