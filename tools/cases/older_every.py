"""Group 45, older files: the third question of every operator, type and transform, around lots, and of sets."""
import itertools
import random
import struct

from model import (
    RECORD, LITERALS, DATE, TS, TSTZ, TSNS, TYPES, TRUNCATE, YEAR, MONTH, DAY, UNKNOWN, TRANSFORMS, LT, LE, GT, GE, NOT_EQ, IN,
    NOT_IN, OPERATORS, LIFTED, FIRST_DAY, LAST_DAY,
)

from .leaves import leaf, literals_for, patched
from .older import GROUP
from .values import NUMBER_PAIRS, edge_literals, ends, lot_starts, moments_of, per_day, valid

NOT_LIFTED = [(column, DAY) for column in (DATE, TSTZ, TSNS)]


def older_leaves(cases):
    every_leaf(cases)
    around_lots(cases)
    older_sets(cases)


def every_leaf(cases):
    """Each operator with each type and transform; where the answer is one for all, every third."""
    turn = 0
    for column, transform in itertools.product(TYPES, TRANSFORMS):
        values = moments_of(column, transform) if (column, transform) in NUMBER_PAIRS else edge_literals(column)
        alike = transform == UNKNOWN or not valid(column, transform)
        for operator in OPERATORS[turn % 3 :: 3] if alike else OPERATORS:
            turn += 7
            some = [values[(turn + 5 * i) % len(values)] for i in range(2)]
            width = 2 if transform == TRUNCATE else 0
            cases.older(GROUP, leaf(operator, column, literals_for(operator, some), transform, width))


def around_lots(cases):
    """The operators that 02 changes, where the bound or the value turns negative, at edges of lots and at the ends; and < and <=
    of negative bounds, which stay."""
    for column, transform in LIFTED:
        after, before = lot_starts(column, transform)
        asked = [*itertools.product((GT, GE, NOT_EQ), (-1, 0, 1, before - 1, before, after))]
        asked += itertools.product((LT, LE), (-1, before))
        asked += itertools.product((GT, GE), ends(column, transform))
        for operator, literal in asked:
            cases.older(GROUP, leaf(operator, column, [literal], transform))


def older_sets(cases):
    rng = random.Random(GROUP)

    def ask(column, transform, literals, operator=NOT_IN):
        cases.older(GROUP, leaf(operator, column, literals, transform))

    # each negative value adds the next, once
    for column, transform in LIFTED + NOT_LIFTED:
        unit = per_day(column) * {YEAR: 366, MONTH: 31, DAY: 1}[transform]
        for lots in ((), (-1,), (-1, -2), (-3, -1), (-2, 0), (-1, 1), (1, 0), (-1, -1, -2, -2)):
            ask(column, transform, [lot * unit for lot in lots])
        ask(column, transform, [rng.choice(moments_of(column, transform)[10:40]) for _ in range(7)])
    # sizes to the most, descending and with repeats; the most literals, that give twice as many where the transform is lifted
    for count in (8, 33, LITERALS - 1):
        ask(DATE, YEAR, [-400 * (i % 40) for i in range(count)])
    full = [*range(LITERALS)]
    rng.shuffle(full)
    ask(DATE, YEAR, [-730 * i - 366 for i in full])
    ask(TSTZ, MONTH, [-70 * i * per_day(TSTZ) - 1 for i in full])
    ask(TSTZ, DAY, [(-2 * i - 1) * per_day(TSTZ) for i in full])
    ask(DATE, MONTH, [-1] * LITERALS)
    # a literal that refuses, first or last, which no step of In needs
    for column, transform, bad in ((DATE, YEAR, LAST_DAY + 1), (TS, MONTH, FIRST_DAY * per_day(TS) - 1)):
        for literals, operator in itertools.product(([-1, bad], [bad, -1, -1]), (IN, NOT_IN)):
            ask(column, transform, literals, operator)
    # records that the chain passes over are ignored
    chained = leaf(NOT_IN, DATE, [-1, 5, -400], YEAR)
    cases.older(GROUP, patched(patched(chained, 0, struct.pack("<H", 2)), RECORD, b"\xff" * RECORD))
    cases.older(GROUP, patched(chained, 0, struct.pack("<H", 3)))
