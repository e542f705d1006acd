"""Group 37, summaries: refusals in order. 2, then 3, 4 and 11, each of the sheet or of the summary."""
import collections
import itertools

from model import (
    RECORD, CONTENT, LITERALS, ANSWER_LITERALS, FLAG_AT, INT, LONG, STRING, BINARY, TYPES, TRUNCATE, YEAR, HOUR, VOID,
    UNKNOWN, IS_NULL, LE, EQ, NOT_EQ, IN, NOT_IN, SKIP, READ, WHOLE, is_number, range_of, summary_of,
)

from .file_cases import Files
from .leaves import leaf, number, patched
from .refusals import malformed

# Bytes with the type that they say, and whether they are against the rules of their form, not UTF-8, or with ends out of order.
Part = collections.namedtuple("Part", "bytes type malformed not_utf8 unordered")
BAD = b"\xff"
TRANSFORMED = (YEAR, 0), (HOUR, 0), (VOID, 0), (UNKNOWN, 0), (TRUNCATE, 0), (TRUNCATE, 2**32 - 1), (YEAR, 1)  # the last is 3


def sheets():
    for column, literal in ((INT, 5), (STRING, b"m"), (STRING, BAD), (BINARY, BAD)):
        good = leaf(EQ, column, [literal])
        for broken in (False, True):
            sheet = patched(good, RECORD, b"\x01") if broken else good
            yield Part(sheet, column, broken, column == STRING and literal == BAD, False)


def summaries():
    texts = (b"a", b"z"), (b"a", BAD), (BAD, BAD), (BAD, b"a"), (b"z", b"a"), ()
    of_column = {INT: [(-5, 5), (5, -5), ()], STRING: texts, BINARY: texts[1:4]}
    for column, some in of_column.items():
        for ends, broken in itertools.product(some, (False, True)):
            summary = summary_of(column, ends, False)
            summary = patched(summary, FLAG_AT, b"\x04") if broken else summary
            yield Part(summary, column, broken, column == STRING and BAD in ends, list(ends) != sorted(ends))


def in_order(sheet, file, room):
    """The first that applies, or None."""
    tests = {
        2: room == 0,
        3: sheet.malformed or file.malformed,
        4: sheet.not_utf8 or file.not_utf8,
        11: file.type != sheet.type or file.unordered,
    }
    return next((refusal for refusal, test in tests.items() if test), None)


def summary_refusals(cases):
    group = Files(cases, 37)
    lent = itertools.cycle((1, 2, 0, RECORD, 1))
    for sheet, file in itertools.product(sheets(), summaries()):
        room = next(lent)
        refusal = in_order(sheet, file, room)
        group.bytes(sheet.bytes, file.bytes, refusal and (refusal,), room)
    broken_sheets(group)
    every_two_types(group)
    ends_out_of_order(group)


def broken_sheets(group):
    """What is 3 of the holds-test's sheet is 3 here; transform and width are ignored where they are in order."""
    for sheet in (*malformed(INT, number(INT, 5)), *malformed(STRING, BAD)):
        group.bytes(sheet, summary_of(STRING, (b"z", b"a"), False))
    for n in (0, 1, RECORD - 1, RECORD, RECORD + 1):
        group.bytes((leaf(IS_NULL, INT) + bytes(RECORD))[:n], summary_of(INT, (0, 1), False), (0, SKIP) if n == RECORD else (3,))
    for count, told in ((LITERALS + 1, (0, READ)), (ANSWER_LITERALS, (0, READ)), (ANSWER_LITERALS + 1, (3,))):
        group.bytes(leaf(IN, INT, range(count)), summary_of(INT, (-1, 500), False), told)
    for transform, width in TRANSFORMED:
        told = (3,) if (transform, width) == (YEAR, 1) else (0, WHOLE)
        group.bytes(leaf(LE, LONG, [5], transform, width), summary_of(LONG, (-7, 5), False), told)


def every_two_types(group):
    """Also of an empty file, and of one with missing values alone, whose ends do not show the type."""
    ends = {column: (0, 1) if is_number(column) else (b"a", b"b") for column in TYPES}
    for one, other in itertools.product(TYPES, TYPES):
        told = None if one == other else (11,)
        group.bytes(leaf(NOT_IN, one), summary_of(other, ends[other], False), told)
        if abs(one - other) < 2:
            group.bytes(leaf(IS_NULL, one), summary_of(other, (), one > other), told)


def ends_out_of_order(group):
    """Numbers are ordered by their sign and size, and not by their bytes; texts by byte, the shorter beginning first."""
    for column in range(INT, STRING):
        first, last = range_of(column)[0], range_of(column)[-1]
        for low, high in ((first, last), (-1, 0), (255, 256), (-256, -255), (first, first + 1), (-1, last)):
            group.bytes(leaf(NOT_EQ, column, [low]), summary_of(column, (low, high), False), (0, READ))
            group.bytes(leaf(NOT_EQ, column, [low]), summary_of(column, (high, low), True), (11,))
    texts = [(b"", b"a"), (b"a", b"a\0"), (b"ab", b"b"), (b"a", b"ab"), (b"z", "é".encode()), (b"a", b"a" * CONTENT)]
    for column, more in ((STRING, []), (BINARY, [(b"\x7f", b"\x80"), (b"\0", b"\xff"), (b"\xff", b"\xff\0")])):
        for low, high in texts + more:
            group.bytes(leaf(NOT_EQ, column, [low]), summary_of(column, (low, high), True), (0, READ))
            group.bytes(leaf(NOT_EQ, column, [low]), summary_of(column, (high, low), False), (11,))
