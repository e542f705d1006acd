"""The values that the groups ask about: texts, widths, numbers at the edges of types and lots; and which pairs take them."""
from model import (
    RECORD, CONTENT, INT, LONG, DATE, STRING, TRUNCATE, YEAR, MONTH, DAY, HOUR, MICROS, NANOS, PER_SECOND, FIRST_DAY,
    LAST_DAY, Refused, is_number, range_of, literal_bytes, result_type, day_number,
)

WIDTHS = (0, 1, 2, 10, 2**31 - 1, 2**31, 2**32 - 1)
NO_RECORD = (0, 1, RECORD - 1, RECORD + 1, 2 * RECORD)  # lengths that no value has
STRINGS = [b"", b"a", b"ab", b"abc", b"b", *(s.encode() for s in ("é", "éa", "€", "\U0001F600")), b"\x7f", b"a" * CONTENT]
BROKEN = [b"\x80", b"\xc3", b"\xc0\x80", b"\xc1\xbf", b"\xe0\x9f\x80", b"\xed\xa0\x80", b"\xf0\x8f\x80\x80"]
BROKEN += [b"\xf4\x90\x80\x80", b"\xf5\x80\x80\x80", b"a\xff", b"\xc3a", b"\xe2\x82"]
TEXTS = [b"", b"a", "é".encode(), "éa".encode(), "aé".encode(), "€é".encode(), "\U0001F600abc".encode()]
BLOBS = [b"", b"\x80", b"\xff\x00", b"\x00\x01\x02", "éa".encode()]
NUMBER_PAIRS = [(c, TRUNCATE) for c in (INT, LONG)] + [
    (c, t) for t in (YEAR, MONTH, DAY, HOUR) for c in (DATE, *MICROS, *NANOS) if (c, t) != (DATE, HOUR)
]
NOTABLE_DAYS = [
    day_number(*date)
    for date in [
        *((y, 1, 1) for y in (-1, 0, 1, 1601, 1900, 1968, 1969, 1970, 1971, 1973, 2000, 2001, 2101)),
        *((y, 3, 1) for y in (-4, 0, 1600, 1900, 1968, 1972, 2000, 2100)),
        *((1968, 2, 29), (1969, 12, 1), (1969, 12, 31), (1970, 2, 1), (2000, 12, 1), (2017, 11, 16)),
        *((1677, 10, 1), (2262, 4, 1), (-262143, 2, 1), (-262142, 1, 1), (262142, 1, 1), (262142, 12, 1)),
    ]
]


def edges(column):
    kinds = range_of(column)
    return [kinds[0], -256, -2, -1, 0, 1, 127, 128, 255, 256, kinds[-1]]


def samples(column):
    return [literal_bytes(column, z) for z in edges(column)] if is_number(column) else STRINGS


def edge_literals(column):
    return edges(column) if is_number(column) else TEXTS if column == STRING else BLOBS


def valid(column, transform):
    try:
        return result_type(column, transform) is not None
    except Refused:
        return False


def per_day(column):
    return 1 if column == DATE else 86400 * PER_SECOND[column]


def lot_starts(column, transform):
    """The first number of a lot after 1970, and of one before."""
    if transform == TRUNCATE:
        return 300, -290
    if transform == HOUR:
        return 419686 * per_day(column) // 24, -26 * per_day(column) // 24
    days = {YEAR: ((2000, 1, 1), (1968, 1, 1)), MONTH: ((2000, 3, 1), (1968, 3, 1)), DAY: ((2017, 11, 16), (1969, 12, 30))}
    return [day_number(*date) * per_day(column) for date in days[transform]]


def ends(column, transform):
    """The type's ends; the calendar's, or those of 32 bits of hours, from within and from without."""
    kinds = range_of(column)
    outer = [kinds[0], kinds[-1]]
    if transform in (YEAR, MONTH):
        first, last = FIRST_DAY * per_day(column), (LAST_DAY + 1) * per_day(column) - 1
    elif transform == HOUR:
        first, last = -(2**31) * (per_day(column) // 24), 2**31 * (per_day(column) // 24) - 1
    else:
        return outer
    return outer + [z for z in (first, first - 1, last, last + 1) if z in kinds]


def moments_of(column, transform):
    """Numbers at a lot's edges, one below and one above."""
    if transform == TRUNCATE:
        starts = [-1000, -100, -20, -10, 0, 10, 20, 100, 2**31 - 8, -(2**31) + 8, -(2**31) + 18]
    elif transform == HOUR:
        starts = [h * per_day(column) // 24 for h in (-400000, -25, -24, -2, -1, 0, 1, 2, 24, 25, 400000)]
    else:
        starts = [d * per_day(column) for d in NOTABLE_DAYS]
    if transform == DAY and column != DATE:  # where the crate is one too high, and its two ends
        window = PER_SECOND[column]
        starts += [d * per_day(column) - window + 1 for d in (-1, -2, -365)] + [-2 * per_day(column) - 1, -per_day(column) - 1]
    near = {z + step for z in starts for step in (-1, 0, 1)}
    return sorted(z for z in near if z in range_of(column))
