"""The questions held to 02's sentences on older files over small worlds, with every leaf, every row and every filing of them;
tools/make-cases runs this first."""
import itertools

from .checks import leaves, short_texts
from .codes import (
    SHEET_ROOM, DATE, TS, TYPES, TRUNCATE, YEAR, MONTH, DAY, TRANSFORMS, GT, GE, NOT_EQ, NOT_IN, MICROS, NANOS, is_number,
    literal_bytes,
)
from .projections import steps, older_steps
from .routines import meets, project, strict_project_older
from .sheets import sheet_of
from .transforms import PER_SECOND, day_number, result_type, transformed

# "The transforms that document 01 lifts (Year, Month, and Day of Timestamp only)", with the types that they take.
LIFTED = [*itertools.product((DATE, *MICROS, *NANOS), (YEAR, MONTH)), (TS, DAY)]


def first_of(column, transform, p):
    """The first value whose partition value is p, by the calendar."""
    year, month = divmod(12 * p if transform == YEAR else p, 12)
    day = p if transform == DAY else day_number(1970 + year, month + 1, 1)
    return day if column == DATE else day * 86400 * PER_SECOND[column]


def moments(column, transform, parts):
    """The first value of each partition value, the one before and the one after."""
    return [first_of(column, transform, p) + step for p in parts for step in (-1, 0, 1)]


def filings_of(column, transform, v):
    """"A row with a negative partition value p may be filed under p or p+1"; a missing one is filed as missing."""
    p = None if v is None else transformed(column, transform, 0, v)
    return [p] if p is None or p >= 0 else [p, p + 1]


def accepted(predicate, column, parts):
    return {f for f in parts if predicate and meets(predicate[0], column, predicate[1], f)}


def check_older():
    for column, transform in LIFTED:
        check_filings(column, transform)
    for column, transform in itertools.product(TYPES, TRANSFORMS):
        if (column, transform) not in LIFTED:
            check_as_strict(column, transform)


def check_filings(column, transform):
    """No inclusive predicate loses a row, whichever its filing. The third question accepts just what the strict one does, but for
    the filings of rows that fail the leaf: the strict one lets in such, under each operator that 02 changes."""
    filed = [(v, f) for v in [*moments(column, transform, range(-3, 3)), None] for f in filings_of(column, transform, v)]
    result, parts, let_in = result_type(column, transform), {f for _, f in filed}, set()
    for operator, literals in leaves(moments(column, transform, range(-2, 2)), 2):
        asked = operator, column, transform, 0, literals
        met = {v: meets(operator, column, literals, v) for v, _ in filed}
        right, wrong = ({f for v, f in filed if met[v] == test} for test in (True, False))
        inclusive, taken = steps(False, *asked), accepted(steps(True, *asked), result, parts)
        assert inclusive is None or right <= accepted(inclusive, result, parts), asked
        assert accepted(older_steps(*asked), result, parts) == taken - wrong, asked
        let_in |= {operator} if taken & wrong else set()
    assert let_in == {GT, GE, NOT_EQ, NOT_IN}, (column, transform, let_in)


def check_as_strict(column, transform):
    """"For other transforms it equals strict", in bytes and refusals."""
    literals = [-90000, -10, -1, 0, 1, 90000] if is_number(column) else short_texts(2)
    for (operator, some), width in itertools.product(leaves(literals, 2), (0, 10) if transform == TRUNCATE else (0,)):
        sheet = sheet_of(operator, column, [literal_bytes(column, l) for l in some], transform, width)
        assert strict_project_older(sheet, SHEET_ROOM) == project(True, sheet, SHEET_ROOM), sheet
