"""A summary for each rule of its form, broken: what is no summary is 3, whatever stands beside it."""
import itertools
import struct

from model import (
    RECORD, CONTENT, MISSING, TYPE_AT, FLAG_AT, SUMMARY, INT, LONG, STRING, BINARY, TYPES, summary_of, value_record,
)

from .leaves import missing_value, patched
from .summary_order import BAD

SIZES = 0, 1, RECORD, TYPE_AT, FLAG_AT, SUMMARY + 1, SUMMARY + RECORD, 2 * SUMMARY


def malformed_summaries(column, ends):
    good, none = summary_of(column, ends, False), summary_of(column, (), True)
    for n in SIZES:
        yield (good + good)[:n]
    for at, new in (
        (TYPE_AT, b"\0"),  # type
        (TYPE_AT, bytes([TYPES[-1] + 1])),
        (TYPE_AT, b"\xff"),
        (FLAG_AT, b"\x04"),  # flag
        (FLAG_AT, b"\x80"),
        (FLAG_AT, b"\xff"),
        (FLAG_AT, b"\x02"),  # none present, with ends
        (FLAG_AT, b"\x03"),
        (0, b"\x01"),  # next
        (1, b"\x01"),
        (RECORD, b"\x01"),
        (RECORD + 1, b"\x01"),
        (2, struct.pack("<H", CONTENT + 1)),  # length
        (RECORD + 2, struct.pack("<H", CONTENT + 1)),
        (2, struct.pack("<H", MISSING)),  # a mark and a content
        (RECORD + 2, struct.pack("<H", MISSING)),
        (RECORD - 1, b"\x01"),  # content after the length
        (TYPE_AT - 1, b"\x01"),
        (0, missing_value()),  # one end marked missing
        (RECORD, missing_value()),
    ):
        yield patched(good, at, new)
    for at, new in (
        (FLAG_AT, b"\0"),  # present ones, without ends
        (FLAG_AT, b"\x01"),
        (0, value_record(column, ends[0])),  # one end that is there
        (RECORD, value_record(column, ends[1])),
        (RECORD, b"\x01"),  # next
        (RECORD - 1, b"\x01"),  # content
    ):
        yield patched(none, at, new)


def every_form(group):
    """3 of either before 4, 11 and 12 of either."""
    partners = itertools.cycle([
        summary_of(INT, (-5, 5), False),
        summary_of(STRING, (b"a", BAD), True),
        summary_of(LONG, (5, -5), False),
        summary_of(BINARY, (BAD, BAD), False),
        summary_of(INT, (), False),
        b"",
        summary_of(STRING, (BAD, b"a"), True),
    ])
    for summary in malformed_summaries(INT, (-5, 5)):
        group.beside(summary, next(partners), (3,))
        group.beside(summary, next(partners), (3,))
    for summary in malformed_summaries(STRING, (BAD, b"a")):
        group.beside(summary, next(partners), (3,))
