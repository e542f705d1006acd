"""Group 45, older files: the third question's refusals in order, and its result buffers. As the strict question's."""
import itertools

from model import (
    RECORD, LITERALS, SHEET_ROOM, VALUE_ROOM, INT, LONG, DATE, TIME, TS, TSTZ, STRING, BINARY, TRUNCATE, YEAR, MONTH, DAY, HOUR,
    VOID, UNKNOWN, IS_NULL, LT, LE, GT, GE, EQ, NOT_EQ, ONE_LITERAL, IN, NOT_IN, SETS, FIRST_DAY, LAST_DAY,
)

from .leaves import leaf, literals_for, number, patched
from .older import GROUP
from .refusals import malformed
from .values import per_day

BAD, LOWEST, HIGHEST = b"\xff", -(2**63), 2**63 - 1
# The number by hand, and a sheet that has it; most have a cause for a later number as well.
ORDER = [
    (3, patched(leaf(EQ, STRING, [BAD], YEAR), 8, b"\x01")),  # and 4, 5
    (3, patched(leaf(EQ, STRING, [BAD], UNKNOWN), RECORD, b"\x01")),  # and 4, 7
    (4, leaf(EQ, STRING, [BAD], YEAR)),  # and 5
    (4, leaf(IN, STRING, [b"a", BAD], HOUR)),
    (4, leaf(NOT_EQ, STRING, [BAD], UNKNOWN)),  # and 7
    (4, leaf(NOT_EQ, STRING, [BAD], VOID)),  # and 1
    (5, leaf(GE, TIME, [LOWEST], YEAR)),  # and 8
    (5, leaf(GE, LONG, [LOWEST], DAY)),
    (5, leaf(GT, DATE, [-1], HOUR)),
    (5, leaf(IS_NULL, INT, [], MONTH)),  # and the leaf itself
    (5, leaf(NOT_IN, BINARY, [], YEAR)),
    (7, leaf(GE, TS, [LOWEST], UNKNOWN)),  # and 8
    (7, leaf(EQ, DATE, [-1], UNKNOWN)),  # and 1
    (7, leaf(IS_NULL, DATE, [], UNKNOWN)),  # and the leaf itself
    (8, leaf(GE, TS, [LOWEST], YEAR)),  # L-1 leaves the type, and T would be 6
    (6, leaf(GE, TS, [LOWEST + 1], YEAR)),
    (6, leaf(GT, TS, [LOWEST], YEAR)),
    (8, leaf(LE, TSTZ, [HIGHEST], MONTH)),  # L+1 alike
    (6, leaf(LE, TSTZ, [HIGHEST - 1], MONTH)),
    (6, leaf(LT, TSTZ, [HIGHEST], MONTH)),
    (6, leaf(NOT_EQ, TSTZ, [HIGHEST], MONTH)),
    (8, leaf(GE, DATE, [FIRST_DAY], MONTH)),  # T's own, here and below
    (8, leaf(NOT_IN, DATE, [-1, FIRST_DAY - 1], YEAR)),
    (8, leaf(LE, DATE, [LAST_DAY], YEAR)),
    (8, leaf(GT, INT, [5], TRUNCATE, 0)),
    (6, leaf(GT, INT, [5], TRUNCATE, 2**31)),
    (8, leaf(LE, INT, [2**31 - 1], TRUNCATE, 2**31)),  # L+1 leaves the type, and T would be 6
]


def older_refusals(cases):
    for refusal, sheet in ORDER:
        cases.older(GROUP, sheet, told=(refusal, b""))
    for sheet in (*malformed(DATE, number(DATE, -5)), *malformed(STRING, BAD)):
        cases.older(GROUP, sheet, told=(3, b""))
    cases.older(GROUP, leaf(NOT_IN, DATE, range(LITERALS + 1), YEAR), told=(3, b""))
    # T's refusal only where a step needs T
    for column, transform, literal in ((DATE, YEAR, LAST_DAY + 1), (TS, MONTH, FIRST_DAY * per_day(TS) - 1), (TS, DAY, HIGHEST)):
        for operator in (IS_NULL, *ONE_LITERAL, *SETS):
            cases.older(GROUP, leaf(operator, column, literals_for(operator, [literal, literal]), transform))


def older_buffers(cases):
    """2 before any other answer."""
    sheets = [
        leaf(GE, DATE, [0], YEAR),  # 0
        leaf(NOT_IN, TS, [(-1 - 2 * i) * per_day(TS) for i in range(LITERALS)], DAY),  # 0, the longest
        leaf(EQ, DATE, [-1], YEAR),  # 1
        b"",  # 3
        leaf(NOT_EQ, STRING, [BAD]),  # 4
        leaf(GT, TIME, [-1], DAY),  # 5
        leaf(GT, TS, [HIGHEST], YEAR),  # 6
        leaf(IS_NULL, DATE, [], UNKNOWN),  # 7
        leaf(GE, TS, [LOWEST], DAY),  # 8
    ]
    for sheet, lent in itertools.product(sheets, (0, VALUE_ROOM, SHEET_ROOM - 1)):
        cases.older(GROUP, sheet, lent, told=(2, b""))
    for sheet, lent in itertools.product(sheets, (SHEET_ROOM, SHEET_ROOM + 1)):
        cases.older(GROUP, sheet, lent)
