"""Group 15: refusals, one before the other."""
import itertools
import struct

from model import (
    RECORD, CONTENT, MISSING, BEFORE_WIDTH, AFTER_WIDTH, LITERALS, LARGEST_SHEET, INT, LONG, DATE, TIME, TS, TSTZ,
    STRING, BINARY, TYPES, IDENTITY, TRUNCATE, YEAR, MONTH, DAY, HOUR, VOID, UNKNOWN, IS_NULL, NOT_NULL, LT, LE, GT, GE,
    EQ, ONE_LITERAL, IN, NOT_IN, SETS, FIRST_DAY, LAST_DAY, range_of, record, value_record, sheet_of,
)

from .leaves import leaf, literals_for, patched, number, missing_value
from .values import per_day


def malformed(column, content):
    """A sheet for each rule of its form, broken; the literal's bytes are the caller's."""
    good = sheet_of(EQ, column, [content])
    pair = sheet_of(IN, column, [content, content])
    for at, new in (
        (0, struct.pack("<H", 2)),  # next past the end
        (0, struct.pack("<H", 0)),  # no literal for Eq
        (2, struct.pack("<H", 209)),  # operator
        (2, struct.pack("<H", IS_NULL)),  # a literal for IsNull
        (4, b"\0"),  # type
        (4, b"\x0b"),
        (5, b"\x08"),  # transform
        (BEFORE_WIDTH[0], b"\x01"),  # reserved
        (AFTER_WIDTH[0], b"\x01"),
        (AFTER_WIDTH[-1], b"\x01"),
        (8, b"\x01"),  # a width under Identity
        (RECORD, struct.pack("<H", 1)),  # next to itself
        (RECORD + 2, struct.pack("<H", CONTENT + 1)),  # length
        (RECORD + 2, struct.pack("<H", MISSING)),
        (2 * RECORD - 1, b"\x01"),  # content after the length
    ):
        yield patched(good, at, new)
    yield patched(pair, 2 * RECORD + 2, struct.pack("<H", MISSING))
    yield patched(pair, RECORD, struct.pack("<H", 3))  # next past the end, in a set
    yield patched(pair, 2 * RECORD, struct.pack("<H", 1))  # next back
    yield record(0, b"", MISSING)
    yield good[:-1]
    yield good + b"\0"
    yield pair.ljust(LARGEST_SHEET + RECORD, b"\0")


def refusals(cases):
    bad = b"\xff"
    # 3 before 4, whatever else there is
    for sheet in (*malformed(INT, number(INT, 5)), *malformed(STRING, bad)):
        cases.both(15, sheet)
    cases.both(15, patched(leaf(IN, STRING, [bad, b"a", b"b"], YEAR), 3 * RECORD + 2, struct.pack("<H", CONTENT + 1)))
    cases.both(15, patched(leaf(EQ, STRING, [bad], UNKNOWN), 8, b"\x01"))
    cases.transform(15, STRING, IDENTITY, 1, record(0, bad))
    cases.transform(15, STRING, UNKNOWN, 1, record(0, bad))
    cases.transform(15, STRING, YEAR, 0, record(1, bad))
    # 4 before 5, Unknown's 7 and Void's 1; a Binary is not judged
    for column, transform in itertools.product((STRING, BINARY), (IDENTITY, TRUNCATE, YEAR, HOUR, VOID, UNKNOWN)):
        for operator, literals in ((EQ, [bad]), (IN, [b"a", b"a\xc3"])):
            cases.both(15, leaf(operator, column, literals, transform))
        cases.transform(15, column, transform, 0, record(0, bad))
    # 5 before a pass-through, an empty set, a missing value, and T's 6 and 8
    pairs = (DATE, HOUR, 0), (TIME, YEAR, 0), (TIME, TRUNCATE, 0), (DATE, TRUNCATE, 2**31), (LONG, DAY, 0)
    for column, transform, width in pairs:
        for operator in (IS_NULL, IN, NOT_IN):
            cases.both(15, leaf(operator, column, [], transform, width))
        cases.both(15, leaf(LT, column, [range_of(column)[0]], transform, width))
        cases.transform(15, column, transform, width, missing_value())
        cases.transform(15, column, transform, width, value_record(column, range_of(column)[0]))
    # Unknown's 7 before a pass-through, an empty set, a missing value
    for column in TYPES:
        cases.both(15, leaf(NOT_NULL, column, [], UNKNOWN))
        cases.both(15, leaf(IN, column, [], UNKNOWN))
        cases.transform(15, column, UNKNOWN, 0, missing_value())
    # 8 of L-1 and L+1 before T's own 6; T's own where L-1 or L+1 stays in the type, or is not needed
    wide = [(INT, TRUNCATE, width) for width in (0, 2**31, 2**31 + 1)]
    for column, transform, width in (*wide, (TS, YEAR, 0), (TSTZ, MONTH, 0), (DATE, YEAR, 0)):
        low, high = range_of(column)[0], range_of(column)[-1]
        for operator, step in itertools.product((LT, GE), (0, 1)):
            cases.both(15, leaf(operator, column, [low + step], transform, width))
        for operator, step in itertools.product((LE, GT), (0, 1)):
            cases.both(15, leaf(operator, column, [high - step], transform, width))
    # T's refusal only where a step needs T
    for column, transform, width, literal in (
        (INT, TRUNCATE, 0, 5),
        (INT, TRUNCATE, 2**31, 5),
        (LONG, TRUNCATE, 0, 5),
        (DATE, YEAR, 0, LAST_DAY + 1),
        (TS, MONTH, 0, (FIRST_DAY * per_day(TS)) - 1),
        (TS, HOUR, 0, 2**63 - 2),
        # texts, which no width refuses
        (STRING, TRUNCATE, 0, b"ab"),
        (BINARY, TRUNCATE, 0, b"ab"),
    ):
        for operator in (IS_NULL, *ONE_LITERAL, *SETS):
            cases.both(15, leaf(operator, column, literals_for(operator, [literal, literal]), transform, width))
        for operator in SETS:
            cases.both(15, leaf(operator, column, [], transform, width))
        cases.transform(15, column, transform, width, missing_value())
        cases.transform(15, column, transform, width, value_record(column, literal))
    # one literal too many to project, and none too many for the holds-test, which judges neither the pair nor the width
    many = leaf(IN, INT, range(LITERALS + 1))
    cases.both(15, many)
    cases.holds(15, many, value_record(INT, LITERALS))
    for transform, width in ((YEAR, 0), (HOUR, 0), (VOID, 0), (UNKNOWN, 0), (TRUNCATE, 0), (TRUNCATE, 2**32 - 1)):
        for column, z in ((INT, 5), (TIME, -1)):
            cases.holds(15, leaf(LE, column, [z], transform, width), value_record(column, z))
            cases.holds(15, leaf(GT, column, [z], transform, width), value_record(column, z))
