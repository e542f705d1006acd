"""Group 40, pooled summaries: ends and flags. Every answer is told."""
import itertools

from model import TYPES

from .pool_cases import SCALES, Pools

# Places on a scale where the first and the second file end; and whose are the pool's ends, 0 the first's and 1 the second's.
PAIRS = [
    # apart
    ((0, 1), (3, 4), (0, 1)), ((3, 4), (0, 1), (1, 0)),
    # touching
    ((0, 2), (2, 4), (0, 1)), ((2, 4), (0, 2), (1, 0)),
    ((1, 2), (2, 3), (0, 1)), ((2, 3), (1, 2), (1, 0)),
    # overlapping
    ((0, 3), (1, 4), (0, 1)), ((1, 4), (0, 3), (1, 0)),
    ((1, 3), (2, 4), (0, 1)), ((2, 4), (1, 3), (1, 0)),
    # one within the other
    ((0, 4), (1, 3), (0, 0)), ((1, 3), (0, 4), (1, 1)),
    ((1, 4), (2, 3), (0, 0)), ((2, 3), (1, 4), (1, 1)),
    # one end is equal, or both are
    ((0, 2), (0, 3), (0, 1)), ((0, 3), (0, 2), (0, 0)),
    ((1, 4), (2, 4), (0, 0)), ((2, 4), (1, 4), (1, 0)),
    ((1, 3), (1, 3), (0, 0)), ((0, 4), (0, 4), (0, 0)),
    # one value
    ((2, 2), (2, 2), (0, 0)), ((0, 0), (0, 0), (0, 0)), ((4, 4), (4, 4), (0, 0)),
    ((0, 0), (4, 4), (0, 1)), ((4, 4), (0, 0), (1, 0)),
    ((1, 1), (2, 2), (0, 1)), ((2, 2), (1, 1), (1, 0)),
    ((2, 2), (1, 3), (1, 1)), ((1, 3), (2, 2), (0, 0)),
    ((1, 1), (1, 3), (0, 1)), ((1, 3), (1, 1), (0, 0)),
    ((3, 3), (1, 3), (1, 0)), ((1, 3), (3, 3), (0, 0)),
]
# Whether a missing value occurs in the first and in the second file, and in the pool.
MARKS = [(False, False, 0), (False, True, 1), (True, False, 1), (True, True, 1)]


def ends_and_flags(cases):
    group = Pools(cases, 40)
    every_pair(group)
    for column in TYPES:
        every_flag(group, column, SCALES[column][0])


def every_pair(group):
    """Of every scale, with the marks in turn."""
    marks = itertools.cycle((*MARKS, *MARKS[:1]))
    for column, scales in SCALES.items():
        for scale, (one, other, whose) in itertools.product(scales, PAIRS):
            a, b, mark = next(marks)
            one, other = ([scale[place] for place in ends] for ends in (one, other))
            group.ask(column, (one, a), (other, b), (*whose, mark))


def every_flag(group, column, scale):
    """Both files with present values, one of them, or neither: then the flag has 2 as well."""
    below, at, above = scale[:2], [scale[2], scale[2]], scale[3:]
    for a, b, mark in MARKS:
        group.ask(column, (below, a), (above, b), (0, 1, mark))
        group.ask(column, (above, a), (below, b), (1, 0, mark))
        for ends in (below, at, above):
            group.ask(column, (ends, a), ((), b), (0, 0, mark))
            group.ask(column, ((), a), (ends, b), (1, 1, mark))
        group.ask(column, ((), a), ((), b), (0, 0, 2 + mark))
