"""Group 12: sets."""
import itertools
import random
import struct

from model import (
    RECORD, CONTENT, LITERALS, INT, LONG, DATE, TS, TSTZ, TSNS, TSTZNS, STRING, BINARY, TYPES, IDENTITY, TRUNCATE, YEAR,
    MONTH, DAY, HOUR, VOID, UNKNOWN, TRANSFORMS, IN, NOT_IN, SETS, LAST_DAY,
)

from .leaves import leaf, patched
from .values import NUMBER_PAIRS, per_day, moments_of, valid, edge_literals


def sets(cases):
    rng = random.Random(3)

    def ask(column, literals, transform, width=0):
        for operator in SETS:
            cases.both(12, leaf(operator, column, literals, transform, width))

    def needing_t(column, literals, transform, width=0):
        for operator, strict in ((IN, False), (NOT_IN, True)):
            cases.project(12, strict, leaf(operator, column, literals, transform, width))

    # every valid pair: the empty set, one literal, some with repeats
    for column, transform in itertools.product(TYPES, TRANSFORMS):
        if not valid(column, transform) or transform in (VOID, UNKNOWN):
            continue
        width = 2 if transform == TRUNCATE else 0
        values = moments_of(column, transform) if (column, transform) in NUMBER_PAIRS else edge_literals(column)
        ask(column, [], transform, width)
        needing_t(column, [rng.choice(values)], transform, width)
        needing_t(column, [rng.choice(values[:5]) for _ in range(7)], transform, width)
    # negative partition values under lifted transforms and others: each adds the one above, once
    pairs = (DATE, YEAR), (TS, YEAR), (TSTZNS, MONTH), (DATE, MONTH), (TS, DAY), (TSTZ, DAY), (TSNS, DAY), (DATE, DAY)
    for column, transform in pairs:
        unit = per_day(column) * {YEAR: 366, MONTH: 31, DAY: 1}[transform]
        for lots in ((-1,), (-1, -2), (-3, -1), (-2, 0), (-1, 1), (1, 0), (-1, -1, -2, -2)):
            needing_t(column, [lot * unit for lot in lots], transform)
    # sizes to the most, descending and with repeats; the most literals, that give twice as many
    for count in (8, 16, 33, LITERALS - 1, LITERALS):
        needing_t(INT, [-7 * (i % 40) for i in range(count)], TRUNCATE, 10)
        needing_t(STRING, ["é".encode() * (i % 3) + bytes([122 - i % 26]) * 5 for i in range(count)], TRUNCATE, 3)
    full = list(range(LITERALS))
    rng.shuffle(full)
    needing_t(DATE, [-730 * i - 366 for i in full], YEAR)
    needing_t(TSTZ, [-70 * i * per_day(TSTZ) - 1 for i in full], MONTH)
    needing_t(TS, [(-2 * i - 1) * per_day(TS) for i in full], DAY)
    needing_t(TSTZ, [(-2 * i - 1) * per_day(TSTZ) for i in full], DAY)
    needing_t(LONG, [-(2**40) * i for i in full], IDENTITY)
    needing_t(LONG, [5] * LITERALS, IDENTITY)
    needing_t(STRING, [bytes([97 + i % 26]) * (CONTENT - i % 3) for i in full], IDENTITY)
    step = CONTENT // LITERALS + 1  # from length to length, so that the longest is among them
    needing_t(BINARY, [bytes([255 - i]) * (step * i % (CONTENT + 1)) for i in full], IDENTITY)
    # texts that coincide after truncation
    for width in (0, 1, 2, 3):
        needing_t(STRING, [b"abc", b"abd", b"ab", b"a", "éa".encode(), "éb".encode(), "é".encode()], TRUNCATE, width)
    # a literal that refuses, first or last; no step needs it for the other two questions
    for column, transform, width, good, bad in (
        (INT, TRUNCATE, 10, 7, -(2**31)),
        (DATE, YEAR, 0, 7, LAST_DAY + 1),
        (TS, MONTH, 0, 7, (LAST_DAY + 1) * per_day(TS)),
        (TSTZ, HOUR, 0, 7, 2**63 - 1),
    ):
        ask(column, [good, bad], transform, width)
        needing_t(column, [bad, good, good], transform, width)
    # records that the chain passes over are ignored
    chained = leaf(IN, DATE, [-1, 5, -400], YEAR)
    passed = patched(patched(chained, 0, struct.pack("<H", 2)), RECORD, b"\xff" * RECORD)
    cases.both(12, passed)
    cases.both(12, patched(chained, 0, struct.pack("<H", 3)))
