"""Group 33, summaries: every operator, kind and flag."""
from model import INT, LONG, DATE, TIME, TS, TSTZ, TSNS, TSTZNS, STRING, BINARY, TYPES, OPERATORS, SKIP, READ, WHOLE, is_number

from .file_cases import Files
from .leaves import MISSING_MEETS, literals_for

# A number of each type, with others near it and far from it; and texts, ascending.
AT = {INT: -300, LONG: 2**40, DATE: 19000, TIME: 86399999999, TS: -1, TSTZ: 17 * 10**14, TSNS: 0, TSTZNS: -(10**18)}
TEXTS = {STRING: [b"aa", b"ab", b"abc", b"abd", "é".encode()], BINARY: [b"\0", b"\x7f", b"\x80", b"\x80\0", b"\xff"]}


def values_of(column):
    return [AT[column] + step for step in (-70000, -1, 0, 1, 70000)] if is_number(column) else TEXTS[column]


def every_operator_and_flag(cases):
    """Files below the literal, around it, of it alone and above it, each with one of two flags; and without a present value."""
    group = Files(cases, 33)
    for column in TYPES:
        below, before, at, after, above = values_of(column)
        for turn, operator in enumerate(OPERATORS, column):
            literals = literals_for(operator, [at, after])
            for i, ends in enumerate(((below, before), (before, after), (at, at), (after, above))):
                group.ask(operator, column, literals, ends, (turn + i) % 2 == 1)
            met = WHOLE if is_number(column) else READ
            group.ask(operator, column, literals, (), False, SKIP)
            group.ask(operator, column, literals, (), True, met if operator in MISSING_MEETS else SKIP)
