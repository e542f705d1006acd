"""The calendar and the transforms: a partition value's type, and T of a present value."""
import datetime

from .codes import (
    INT, LONG, DATE, TS, TSTZ, TSNS, TSTZNS, STRING, BINARY, IDENTITY, TRUNCATE, YEAR, MONTH, DAY, HOUR, VOID, UNKNOWN,
    MICROS, NANOS, I32, need, range_of,
)

PER_SECOND = {TS: 10**6, TSTZ: 10**6, TSNS: 10**9, TSTZNS: 10**9}
FIRST_DAY, LAST_DAY = -96465292, 95026236  # the calendar's ends


def result_type(column, transform):
    """The type of a partition value; 5 where the pair is not valid. Unknown's is the Rust's: only a filter's values show it."""
    if transform in (IDENTITY, VOID):
        return column
    if transform == UNKNOWN:
        return STRING
    if transform == TRUNCATE:
        need(column in (INT, LONG, STRING, BINARY), 5)
        return column
    need(column in MICROS + NANOS or (column == DATE and transform != HOUR), 5)
    return DATE if transform == DAY else INT


def civil(day):
    """Year and month of a day number: the calendar repeats after 400 years, which are 146,097 days."""
    cycles, rest = divmod(day, 146097)
    known = datetime.date(1970, 1, 1) + datetime.timedelta(days=rest)
    return known.year + 400 * cycles, known.month


def day_number(year, month, day):
    cycles, rest = divmod(year - 1970, 400)
    return (datetime.date(1970 + rest, month, day) - datetime.date(1970, 1, 1)).days + 146097 * cycles


def day_of(column, v):
    return v if column == DATE else v // (86400 * PER_SECOND[column])


def hour_of(column, v):
    hours = v // (3600 * PER_SECOND[column])
    need(hours in I32, 8)
    return hours


def months_of(column, v):
    """Months from January 1970."""
    day = day_of(column, v)
    need(FIRST_DAY <= day <= LAST_DAY, 8 if column == DATE else 6)
    year, month = civil(day)
    return 12 * (year - 1970) + month - 1


def truncated(column, width, v):
    if column == STRING:
        return v.decode("utf-8")[:width].encode("utf-8")
    if column == BINARY:
        return v[:width]
    need(column != INT or width in I32, 6)
    need(width != 0, 8)
    cut = v - v % width
    need(cut in range_of(column), 8)
    return cut


def transformed(column, transform, width, v):
    """T of a present value, in the result's type; Void has none, and Unknown was refused before."""
    if transform == TRUNCATE:
        return truncated(column, width, v)
    if transform == YEAR:
        return months_of(column, v) // 12
    if transform == MONTH:
        return months_of(column, v)
    if transform == DAY:
        return day_of(column, v)
    if transform == HOUR:
        return hour_of(column, v)
    assert transform == IDENTITY
    return v


assert civil(FIRST_DAY) == (-262143, 1) and civil(FIRST_DAY - 1) == (-262144, 12)
assert civil(LAST_DAY) == (262142, 12) and civil(LAST_DAY + 1) == (262143, 1)
