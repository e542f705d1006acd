"""Group 38, summaries: one byte damaged. Every byte of a summary; its size; every type and flag; lengths and marks of the ends."""
import itertools
import struct

from model import (
    RECORD, CONTENT, MISSING, TYPE_AT, SUMMARY, INT, LONG, TS, STRING, BINARY, TYPES, IS_NULL, IN, NOT_IN, is_number,
    record, value_record, summary_of,
)

from .file_cases import Files
from .leaves import leaf, missing_value, patched

NO_SUMMARY = [n for k in range(5) for n in range(RECORD * k - 1, RECORD * k + 4) if 0 <= n != SUMMARY]
NUMBERS, TEXTS = (-2, 300), ("é".encode(), "é".encode() + b"\x7f")
# The flags that there are, and whether the lowest and the highest are there with them.
FLAGS = [(0, True, True), (1, True, True), (2, False, False), (3, False, False)]


def summary_bytes(cases):
    group = Files(cases, 38)
    every_byte(group)
    sizes(group)
    every_type(group)
    every_flag(group)
    lengths_and_marks(group)


def every_byte(group):
    for column, ends, missing in ((INT, NUMBERS, True), (STRING, TEXTS, False), (TS, (), True)):
        summary = summary_of(column, ends, missing)
        sheet = leaf(NOT_IN, column, ends)
        for at in range(SUMMARY):
            group.bytes(sheet, patched(summary, at, bytes([summary[at] ^ group.rng.choice((1, 2, 128))])))


def sizes(group):
    """Cut off, or gone on with zeros; and with the type and the flag at the end, after more or fewer bytes than two records."""
    for column, ends in ((INT, NUMBERS), (STRING, TEXTS), (LONG, ())):
        summary = summary_of(column, ends, True)
        sheet = leaf(IN, column, ends)
        group.bytes(sheet, summary)
        for n in NO_SUMMARY:
            group.bytes(sheet, summary.ljust(n, b"\0")[:n], (3,))
        for n in (0, RECORD, 3 * RECORD, 4 * RECORD):
            group.bytes(sheet, summary[:TYPE_AT].ljust(n, b"\0")[:n] + summary[TYPE_AT:], (3,))


def every_type(group):
    """Ends of four bytes, which some numbers and texts have, or of eight; or none, which every type may have."""
    for b in range(256):
        ends, flag = (2 * record(0, b"abcd"), 0) if b % 2 else (2 * missing_value(), 2)
        group.bytes(leaf(IS_NULL, b if b in TYPES else INT), ends + bytes([b, flag]), None if b in TYPES else (3,))
    for column in TYPES:
        group.bytes(leaf(IS_NULL, column), 2 * record(0, b"abcdefgh") + bytes([column, 1]))
        group.bytes(leaf(IS_NULL, column), 2 * missing_value() + bytes([column, 3]))


def every_flag(group):
    """With ends that are there or marked missing, each or both."""
    columns = itertools.cycle((INT, STRING, LONG, BINARY, TS))
    for flag, low, high in itertools.product(range(256), (False, True), (False, True)):
        column = next(columns)
        values = NUMBERS if is_number(column) else TEXTS
        ends = (value_record(column, value if there else None) for value, there in zip(values, (low, high)))
        told = None if (flag, low, high) in FLAGS else (3,)
        group.bytes(leaf(IN, column, values[:1]), b"".join(ends) + bytes([column, flag]), told)


def lengths_and_marks(group):
    """Of the lowest or the highest end, with zeros for content; and a mark beside a next or a content."""
    for at, column in itertools.product((0, RECORD), TYPES):
        good = summary_of(column, (0, 0) if is_number(column) else (b"", b"\0"), False)
        for n in (0, 4, 8, CONTENT + 1, MISSING):
            group.bytes(leaf(NOT_IN, column), patched(good, at + 2, struct.pack("<H", n)))
    for at, new in itertools.product((0, 1, 4, RECORD - 1, RECORD, RECORD + 4, TYPE_AT - 1), (b"\x01", b"\x80")):
        group.bytes(leaf(IS_NULL, LONG), patched(summary_of(LONG, (), True), at, new), (3,))
