"""Group 34, summaries: around the literals. Files that end one below a literal, at it, one above it, or at the type's ends."""
import itertools

from model import INT, LONG, DATE, TIME, TS, TSTZ, TSNS, TSTZNS, ONE_LITERAL, SETS, range_of

from .file_cases import Files, windows

# Where signs and bytes carry over.
OTHERS = {DATE: 0, TIME: 256, TS: -(2**31), TSTZ: 2**31, TSNS: -(2**32) - 1, TSTZNS: 65535}


def near(column, literal):
    return [z for z in (literal - 1, literal, literal + 1) if z in range_of(column)]


def around_literals(cases):
    group = Files(cases, 34)
    for column, carries in ((INT, 255), (LONG, 2**31 - 1)):
        first, last = range_of(column)[0], range_of(column)[-1]
        for literal in (-1, first, last):
            some = {*windows(near(column, literal)), (first, first), (last, last), (first, last)}
            some |= {(first, z) for z in near(column, literal)} | {(z, last) for z in near(column, literal)}
            ask_all(group, column, literal, sorted(some))
        ask_all(group, column, carries, windows(near(column, carries)))
    for column, literal in OTHERS.items():
        for operator, ends in itertools.product(ONE_LITERAL[column % 2 :: 2], windows(near(column, literal))):
            group.either(operator, column, [literal], ends)


def ask_all(group, column, literal, some):
    """Each operator that takes a literal, also as a set of it alone."""
    for operator, ends in itertools.product((*ONE_LITERAL, *SETS), some):
        group.either(operator, column, [literal], ends)
