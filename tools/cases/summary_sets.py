"""Group 35, summaries: sets of numbers, beside files of exactly these numbers, of one more and of one fewer."""
import itertools
import struct

from model import (
    RECORD, LITERALS, ANSWER_LITERALS, INT, LONG, DATE, TSTZNS, IN, NOT_IN, SETS, SKIP, READ, WHOLE, range_of, summary_of,
)

from .file_cases import Files
from .leaves import leaf, patched

# Literals, and files by what In says of them; NotIn says the opposite.
SMALL = [
    ([7], {WHOLE: [(7, 7)], READ: [(6, 7), (7, 8), (6, 8)], SKIP: [(6, 6), (8, 8), (-7, -7)]}),
    ([3, 4, 5], {WHOLE: [(3, 5), (3, 4), (4, 4)], READ: [(2, 5), (3, 6), (2, 6), (5, 6)], SKIP: [(0, 2), (6, 7)]}),
    ([4, 3, 5], {WHOLE: [(3, 5), (4, 5)], READ: [(2, 3), (3, 6)], SKIP: [(2, 2)]}),
    ([-1, 0], {WHOLE: [(-1, 0), (-1, -1)], READ: [(-2, 0), (-1, 1), (-256, 255)], SKIP: [(-9, -2), (1, 9)]}),
    # gaps
    ([1, 3, 5], {WHOLE: [(1, 1), (5, 5)], READ: [(1, 2), (1, 3), (2, 4), (1, 5), (0, 6)], SKIP: [(2, 2), (4, 4), (6, 9)]}),
    ([5, 1, 2], {WHOLE: [(1, 2)], READ: [(1, 3), (2, 5), (1, 5)], SKIP: [(3, 4)]}),
    # repeats
    ([3, 3, 4], {WHOLE: [(3, 4), (3, 3)], READ: [(3, 5), (2, 4)], SKIP: [(5, 5)]}),
    ([3, 3, 3], {WHOLE: [(3, 3)], READ: [(3, 4), (3, 5), (2, 3)], SKIP: [(2, 2), (4, 5)]}),
    ([5, 3, 5, 5], {WHOLE: [(5, 5)], READ: [(3, 5), (3, 6), (4, 5)], SKIP: [(4, 4)]}),
    # none
    ([], {SKIP: [(0, 0), (-1, 1), (-(2**31), 2**31 - 1)]}),
]
OPPOSITE = {SKIP: WHOLE, READ: READ, WHOLE: SKIP}


def number_sets(cases):
    group = Files(cases, 35)
    small_sets(group)
    far_ends(group)
    full_sets(group)
    passed_over(group)


def small_sets(group):
    """A missing value meets NotIn and not In: it takes a file from whole to read of In, and from skip to read of NotIn."""
    columns = itertools.cycle((INT, LONG, DATE, TSTZNS))
    for literals, files in SMALL:
        for told, some in files.items():
            for ends in some:
                column = next(columns)
                for operator, without, gone in ((IN, told, WHOLE), (NOT_IN, OPPOSITE[told], SKIP)):
                    group.ask(operator, column, literals, ends, told=without)
                    group.ask(operator, column, literals, ends, True, READ if without == gone else without)


def far_ends(group):
    """At the type's ends; and ends so far apart that a narrower number would not tell it."""
    for column in (INT, LONG):
        first, last = range_of(column)[0], range_of(column)[-1]
        near = [(first, first + step) for step in range(3)] + [(last - step, last) for step in range(3)] + [(first, last)]
        for literals in ([first, first + 1], [last - 1, last], [last, first], [first], [last], [-1, 0]):
            for operator, ends in itertools.product(SETS, near):
                group.either(operator, column, literals, ends)
        for bits, more, operator in itertools.product((8, 16, 31, 32, 63), (0, 1), SETS):
            for low in (-(2 ** (bits - 1)), 5):
                if first <= low and low + 2**bits + more <= last:
                    group.either(operator, column, [low, low + more], (low, low + 2**bits + more))


def full_sets(group):
    """As many literals as a sheet may have, in any order: all of the file, one more, one fewer, one twice in another's place."""
    for column, count in ((INT, LITERALS), (LONG, ANSWER_LITERALS)):
        first, last = range_of(column)[0], range_of(column)[-1]
        for start in (-count // 2, first, last - count + 1):
            literals = [start + i for i in range(count)]
            group.rng.shuffle(literals)
            low, high = start, start + count - 1
            files = (low, high), (low + 1, high), (low, high - 1), (low - 1, high), (low, high + 1), (first, last)
            for operator, ends in itertools.product(SETS, files):
                if first <= ends[0] and ends[1] <= last:
                    group.either(operator, column, literals, ends)
            gone = start + group.rng.randrange(1, count - 1)
            twice = [gone + 1 if l == gone else l for l in literals]
            for operator, ends in itertools.product(SETS, ((low, high), (gone, gone), (gone + 1, gone + 1))):
                group.either(operator, column, twice, ends)
        for operator, ends in itertools.product(SETS, ((5, 5 + count - 1), (5, 5))):
            group.either(operator, column, [5] * count, ends)


def passed_over(group):
    """A literal that the chain passes over is none."""
    base = leaf(IN, INT, [3, 4, 5])
    chained = patched(patched(base, RECORD, struct.pack("<H", 3)), 2 * RECORD, b"\xff" * RECORD)
    for operator, ends in itertools.product(SETS, ((3, 5), (4, 4), (3, 3), (5, 6))):
        group.bytes(patched(chained, 2, struct.pack("<H", operator)), summary_of(INT, ends, False))
