"""The ticket that a seed names, by the rule in docs/COMMANDS.md: ChaCha20 (RFC 8439) with a counter of 64 bits and a
nonce of zero."""

import itertools
import struct

CONSTANTS = (0x61707865, 0x3320646E, 0x79622D32, 0x6B206574)
COLUMNS = ((0, 4, 8, 12), (1, 5, 9, 13), (2, 6, 10, 14), (3, 7, 11, 15))
DIAGONALS = ((0, 5, 10, 15), (1, 6, 11, 12), (2, 7, 8, 13), (3, 4, 9, 14))
MASK = 0xFFFFFFFF
CANDIDATES = 256


def add_and_turn(words, target, other, turned, steps):
    """words[target] += words[other]; words[turned] is combined with it and turned left."""
    words[target] = (words[target] + words[other]) & MASK
    mixed = words[turned] ^ words[target]
    words[turned] = (mixed << steps | mixed >> (32 - steps)) & MASK


def quarter(words, a, b, c, d):
    add_and_turn(words, a, b, d, 16)
    add_and_turn(words, c, d, b, 12)
    add_and_turn(words, a, b, d, 8)
    add_and_turn(words, c, d, b, 7)


def block(key, counter):
    """The sixteen words of a block of the stream."""
    start = [*CONSTANTS, *key, counter & MASK, counter >> 32, 0, 0]
    words = list(start)
    for _ in range(10):
        for places in COLUMNS + DIAGONALS:
            quarter(words, *places)
    return [(word + first) & MASK for word, first in zip(words, start)]


def candidates(seed):
    """Numbers of 128 bits, four words each, the least word first."""
    key = struct.unpack("<8I", bytes.fromhex(seed))
    for counter in itertools.count():
        words = block(key, counter)
        for first in range(0, len(words), 4):
            yield sum(word << 32 * place for place, word in enumerate(words[first : first + 4]))


def ticket_of(seed, denominator):
    """The first candidate whose lowest bits are below the denominator, or None where the first 256 have none."""
    kept = (1 << (denominator - 1).bit_length()) - 1
    found = (candidate & kept for candidate in itertools.islice(candidates(seed), CANDIDATES))
    return next((ticket for ticket in found if ticket < denominator), None)
