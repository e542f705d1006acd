"""Group 13: transforms of one value."""
import itertools

from model import (
    RECORD, CONTENT, MISSING, INT, LONG, STRING, BINARY, TYPES, IDENTITY, TRUNCATE, YEAR, HOUR, VOID, UNKNOWN, TRANSFORMS,
    is_number, range_of, record, value_record,
)

from .leaves import patched, missing_value
from .values import WIDTHS, NO_RECORD, BROKEN, NUMBER_PAIRS, TEXTS, ends, moments_of, valid, edge_literals


def transforms(cases):
    def ask(column, transform, width, value):
        cases.transform(13, column, transform, width, value_record(column, value))

    for column, transform in itertools.product(TYPES, TRANSFORMS):
        width = 3 if transform == TRUNCATE else 0
        ask(column, transform, width, None)
        if (column, transform) in NUMBER_PAIRS:
            step = 2 if transform in (TRUNCATE, HOUR) else 5
            for v in moments_of(column, transform)[column % step :: step] + ends(column, transform):
                ask(column, transform, width, v)
        elif valid(column, transform) and transform != UNKNOWN:
            for v in edge_literals(column)[:: 3 if is_number(column) else 2]:
                ask(column, transform, width, v)
        else:
            ask(column, transform, width, edge_literals(column)[transform % 5])
    for width in WIDTHS:
        for column in (INT, LONG):
            kinds = range_of(column)
            for v in (kinds[0], kinds[0] + 1, -width - 1, -width, -1, 0, width - 1, width, kinds[-1]):
                if v in kinds:
                    ask(column, TRUNCATE, width, v)
        for column in (INT, LONG, STRING, BINARY):
            ask(column, TRUNCATE, width, None)
    half = CONTENT // len("é".encode())
    for text, width in itertools.product(TEXTS + [b"a" * CONTENT, "é".encode() * half], (0, 1, 2, 3, half - 1, CONTENT)):
        ask(STRING, TRUNCATE, width, text)
    for i, bs in enumerate(BROKEN):
        for transform in (IDENTITY, (TRUNCATE, YEAR, VOID, UNKNOWN)[i % 4]):
            cases.transform(13, STRING, transform, 0, record(0, bs))
        ask(BINARY, IDENTITY, 0, bs)
    # numbers out of the head's rules, and records that are malformed
    zero = value_record(INT, 0)
    for column, transform, width in [(c, 0, 0) for c in (0, 11, 12, 255)] + [(INT, t, w) for t in (8, 9, 255) for w in (0, 1)]:
        cases.transform(13, column, transform, width, zero)
    for transform in TRANSFORMS:
        cases.transform(13, INT, transform, 1, zero)
    for column in (INT, LONG, STRING, BINARY):
        good = value_record(column, 1 if is_number(column) else b"ab")
        lengths = [(2, n.to_bytes(2, "little")) for n in (3, CONTENT + 1, MISSING)]
        for at, new in ((0, b"\x01"), (1, b"\x01"), *lengths, (3, b"\x01"), (12, b"\x01")):
            cases.transform(13, column, IDENTITY, 0, patched(good, at, new))
        cases.transform(13, column, IDENTITY, 0, patched(missing_value(), RECORD - 1, b"\x01"))
    for length in NO_RECORD:
        cases.transform(13, INT, IDENTITY, 0, zero.ljust(length, b"\0")[:length])
