"""Group 45, older files: the third question beside the strict one, and what rows and their filings meet. Each answer by hand."""
from model import (
    SHEET_ROOM, INT, LONG, DATE, TS, TSTZ, TSNS, IDENTITY, TRUNCATE, YEAR, MONTH, DAY, HOUR, VOID, IS_NULL, NOT_NULL, LT, LE, GT,
    GE, EQ, NOT_EQ, STARTS, NOT_STARTS, IN, NOT_IN, filings_of, project, result_type, strict_project_older, value_record,
)

from .leaves import leaf
from .published import told_sheet

GROUP = 45
MICRO_DAY = 86400000000
ODD_DAYS, ALL_DAYS = [(-1 - 2 * i) * MICRO_DAY for i in range(64)], [(-1 - i) * MICRO_DAY for i in range(64)]
# Operator, type, transform (Truncate has width 10) and literals; the strict answer, and that for older files where it is another.
TOLD = [
    # the bound's own sign decides, and not that of T(L)
    (GE, DATE, YEAR, [0], (0, GT, -1), (0, GT, 0)),
    (GT, DATE, YEAR, [-1], (0, GT, -1), (0, GT, 0)),
    (GE, DATE, YEAR, [-365], (0, GT, -2), (0, GT, -1)),
    (GE, DATE, MONTH, [0], (0, GT, -1), (0, GT, 0)),
    (GT, DATE, MONTH, [-32], (0, GT, -2), (0, GT, -1)),
    (GE, TS, DAY, [0], (0, GT, -1), (0, GT, 0)),
    (GE, TS, DAY, [1], (0, GT, 0)),
    (GT, TS, DAY, [-MICRO_DAY], (0, GT, -1), (0, GT, 0)),
    (GT, TS, DAY, [-MICRO_DAY - 1], (0, GT, -2), (0, GT, -1)),
    (GT, TSTZ, MONTH, [-1], (0, GT, -1), (0, GT, 0)),
    (GE, TSNS, YEAR, [0], (0, GT, -1), (0, GT, 0)),
    (GE, DATE, YEAR, [1], (0, GT, 0)),
    (GT, DATE, YEAR, [0], (0, GT, 0)),
    (GT, DATE, MONTH, [31], (0, GT, 1)),
    # < stays
    (LT, DATE, YEAR, [0], (0, LT, 0)),
    (LT, DATE, YEAR, [-1], (0, LT, -1)),
    (LE, DATE, MONTH, [-32], (0, LT, -1)),
    (LE, TS, DAY, [-1], (0, LT, 0)),
    (LE, TS, DAY, [-2], (0, LT, -1)),
    # NotEq and NotIn
    (NOT_EQ, DATE, YEAR, [-1], (0, NOT_EQ, -1), (0, NOT_IN, -1, 0)),
    (NOT_EQ, DATE, MONTH, [-32], (0, NOT_EQ, -2), (0, NOT_IN, -2, -1)),
    (NOT_EQ, TS, DAY, [-MICRO_DAY - 1], (0, NOT_EQ, -2), (0, NOT_IN, -2, -1)),
    (NOT_EQ, DATE, YEAR, [0], (0, NOT_EQ, 0)),
    (NOT_EQ, TS, DAY, [MICRO_DAY], (0, NOT_EQ, 1)),
    (NOT_IN, DATE, YEAR, [-1, -400, 5], (0, NOT_IN, -2, -1, 0)),
    (NOT_IN, DATE, YEAR, [-400, 5], (0, NOT_IN, -2, 0), (0, NOT_IN, -2, -1, 0)),
    (NOT_IN, DATE, MONTH, [70, -1, -1], (0, NOT_IN, -1, 2), (0, NOT_IN, -1, 0, 2)),
    (NOT_IN, TS, DAY, [-1], (0, NOT_IN, -1), (0, NOT_IN, -1, 0)),
    (NOT_IN, TS, DAY, [MICRO_DAY, 0], (0, NOT_IN, 0, 1)),
    (NOT_IN, TSNS, MONTH, [], (0, NOT_IN)),
    # full sets: the longest answer, and one whose next values are among the others
    (NOT_IN, TS, DAY, ODD_DAYS, (0, NOT_IN, *range(-127, 0, 2)), (0, NOT_IN, *range(-127, 1))),
    (NOT_IN, TS, DAY, ALL_DAYS, (0, NOT_IN, *range(-64, 0)), (0, NOT_IN, *range(-64, 1))),
    # no predicate, and one that has no literal
    (EQ, DATE, YEAR, [-1], (1,)),
    (IN, DATE, MONTH, [-1, 0], (1,)),
    (IN, TS, DAY, [], (1,)),
    (STARTS, DATE, YEAR, [-1], (1,)),
    (NOT_STARTS, TS, DAY, [-1], (1,)),
    (IS_NULL, DATE, YEAR, [], (0, IS_NULL)),
    (NOT_NULL, TS, DAY, [], (0, NOT_NULL)),
    # the ends of the calendar and of the type
    (GT, DATE, YEAR, [-96465292], (0, GT, -264113), (0, GT, -264112)),
    (GT, DATE, MONTH, [-96465292], (0, GT, -3169356), (0, GT, -3169355)),
    (NOT_EQ, DATE, YEAR, [-96465292], (0, NOT_EQ, -264113), (0, NOT_IN, -264113, -264112)),
    (GT, TS, DAY, [-(2**63)], (0, GT, -106751992), (0, GT, -106751991)),
    (GE, DATE, YEAR, [-96465292], (8,)),
    (NOT_EQ, DATE, MONTH, [-96465293], (8,)),
    (NOT_IN, DATE, YEAR, [-1, 95026237], (8,)),
    (GE, TS, DAY, [-(2**63)], (8,)),
    (LE, TS, DAY, [2**63 - 1], (8,)),
    (GT, TS, YEAR, [-(2**63)], (6,)),
    (NOT_IN, TSTZ, MONTH, [-(2**63), -1], (6,)),
    # other transforms
    (GE, TSTZ, DAY, [0], (0, GT, -1)),
    (GE, TSNS, DAY, [0], (0, GT, -1)),
    (GE, DATE, DAY, [0], (0, GT, -1)),
    (NOT_EQ, TSTZ, DAY, [-1], (0, NOT_EQ, -1)),
    (NOT_IN, DATE, DAY, [-1, -3], (0, NOT_IN, -3, -1)),
    (GE, TS, HOUR, [0], (0, GT, -1)),
    (NOT_EQ, TS, HOUR, [-1], (0, NOT_EQ, -1)),
    (GT, INT, TRUNCATE, [-1], (0, GT, -10)),
    (NOT_IN, LONG, TRUNCATE, [-1, -25], (0, NOT_IN, -30, -10)),
    (GT, DATE, IDENTITY, [-1], (0, GT, -1)),
    (NOT_EQ, TS, IDENTITY, [-1], (0, NOT_EQ, -1)),
    (NOT_EQ, DATE, VOID, [-1], (1,)),
]
# Operator, type, transform and literals; a row, a filing of it, and whether the row meets the leaf and the filing the inclusive
# predicate, the strict one and that for older files, 0 for yes; None where there is none.
FILED = [
    # rows of the literal and beside it, filed under their partition value and the next
    (NOT_EQ, DATE, YEAR, [-1], -1, -1, (1, None, 1, 1)),
    (NOT_EQ, DATE, YEAR, [-1], -1, 0, (1, None, 0, 1)),
    (NOT_EQ, DATE, YEAR, [-1], 5, 0, (0, None, 0, 1)),
    (NOT_EQ, DATE, YEAR, [-1], 366, 1, (0, None, 0, 0)),
    (NOT_IN, DATE, MONTH, [-32, 31], -32, -2, (1, None, 1, 1)),
    (NOT_IN, DATE, MONTH, [-32, 31], -32, -1, (1, None, 0, 1)),
    (NOT_IN, DATE, MONTH, [-32, 31], 0, 0, (0, None, 0, 0)),
    (GE, DATE, YEAR, [0], -1, -1, (1, 1, 1, 1)),
    (GE, DATE, YEAR, [0], -1, 0, (1, 0, 0, 1)),
    (GE, DATE, YEAR, [0], 0, 0, (0, 0, 0, 1)),
    (GE, DATE, YEAR, [0], 365, 1, (0, 0, 0, 0)),
    (GT, TS, DAY, [-MICRO_DAY - 1], -MICRO_DAY - 1, -2, (1, 1, 1, 1)),
    (GT, TS, DAY, [-MICRO_DAY - 1], -MICRO_DAY - 1, -1, (1, 0, 0, 1)),
    (GT, TS, DAY, [-MICRO_DAY - 1], -1, 0, (0, 0, 0, 0)),
    (LT, TS, DAY, [0], -1, -1, (0, 0, 0, 0)),
    (LT, TS, DAY, [0], -1, 0, (0, 0, 1, 1)),
    (LE, DATE, MONTH, [-32], -32, -2, (0, 0, 0, 0)),
    (LE, DATE, MONTH, [-32], -32, -1, (0, 0, 1, 1)),
    (EQ, DATE, YEAR, [-1], -1, -1, (0, 0, None, None)),
    (EQ, DATE, YEAR, [-1], -1, 0, (0, 0, None, None)),
    (IN, TS, DAY, [-MICRO_DAY - 1, 0], -MICRO_DAY - 1, -1, (0, 0, None, None)),
    # a missing row is filed as missing
    (NOT_EQ, DATE, YEAR, [-1], None, None, (0, None, 0, 0)),
    (NOT_IN, TS, DAY, [-1], None, None, (0, None, 0, 0)),
    (GE, DATE, MONTH, [0], None, None, (1, 1, 1, 1)),
    (LT, TS, DAY, [0], None, None, (1, 1, 1, 1)),
    (EQ, DATE, YEAR, [-1], None, None, (1, 1, None, None)),
    (IS_NULL, DATE, YEAR, [], None, None, (0, 0, 0, 0)),
    (NOT_NULL, TS, DAY, [], None, None, (1, 1, 1, 1)),
]


def older_files(cases):
    for line in TOLD:
        told_answers(cases, *line)
    for line in FILED:
        told_filing(cases, *line)


def told_answers(cases, operator, column, transform, literals, *answers):
    sheet = leaf(operator, column, literals, transform, 10 if transform == TRUNCATE else 0)
    result = result_type(column, transform)
    cases.project(GROUP, True, sheet, told=told_sheet(answers[0], result))
    cases.older(GROUP, sheet, told=told_sheet(answers[-1], result))


def told_filing(cases, operator, column, transform, literals, row, filing, answers):
    assert filing in filings_of(column, transform, row), (column, transform, row, filing)
    sheet, filed = leaf(operator, column, literals, transform), value_record(result_type(column, transform), filing)
    cases.holds(GROUP, sheet, value_record(column, row), answers[0])
    predicates = project(False, sheet, SHEET_ROOM), project(True, sheet, SHEET_ROOM), strict_project_older(sheet, SHEET_ROOM)
    for (number, predicate), told in zip(predicates, answers[1:]):
        assert number == (1 if told is None else 0), (sheet, number, told)
        if told is not None:
            cases.holds(GROUP, predicate, filed, told)
