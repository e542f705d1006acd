"""Group 21, filters: values. Every rule broken once, of a row and of partition values; and their types."""
import itertools
import struct

from model import (
    RECORD, CONTENT, MISSING, INT, LONG, DATE, TIME, TS, STRING, BINARY, TYPES, IDENTITY, TRUNCATE, YEAR, MONTH, DAY, HOUR,
    VOID, UNKNOWN, TRANSFORMS, record, value_record,
)

from .leaves import missing_value, patched
from .tables import Group, Table

FOUR, EIGHT, ANY = (4,), (8,), (0, 4, 8)
# A column beside the one that the text names, and the lengths among 0, 4 and 8 of its values: of a row, of partition values.
SIZES = [
    (INT, IDENTITY, FOUR, FOUR),
    (LONG, IDENTITY, EIGHT, EIGHT),
    (LONG, TRUNCATE, EIGHT, EIGHT),
    (DATE, YEAR, FOUR, FOUR),
    (TS, IDENTITY, EIGHT, EIGHT),
    (TS, YEAR, EIGHT, FOUR),
    (TS, MONTH, EIGHT, FOUR),
    (TS, DAY, EIGHT, FOUR),
    (TS, HOUR, EIGHT, FOUR),
    (TS, VOID, EIGHT, EIGHT),
    (TS, TRUNCATE, EIGHT, EIGHT),  # no result type: the column's
    (TIME, YEAR, EIGHT, EIGHT),
    (INT, DAY, FOUR, FOUR),
    (DATE, HOUR, FOUR, FOUR),
    (LONG, UNKNOWN, EIGHT, ANY),  # Unknown's are Strings
    (INT, UNKNOWN, FOUR, ANY),
    (STRING, IDENTITY, ANY, ANY),
    (BINARY, YEAR, ANY, ANY),
    (BINARY, UNKNOWN, ANY, ANY),
]


def values(cases):
    group = Group(cases, 21)
    for column, transform, row, part in SIZES:
        columns = Table(v=(column, transform), a=(INT,)).list
        for length in ANY:
            given = record(0, b"1" * length) + value_record(INT, 0)
            group.row_bytes(columns, b"a<1", given, 0 if length in row else 3)
            group.parts_bytes(columns, b"a<1", given, 2 * [0 if length in part else 3])
    for column, transform, length in itertools.product(TYPES, TRANSFORMS, (4, 8, CONTENT + 1, MISSING)):
        columns, given = Table(v=(column, transform), a=(INT,)).list, record(0, b"", length) + value_record(INT, 0)
        group.alike_bytes(columns, b"a<1", given, given)
    broken_records(group)


def broken_records(group):
    table = Table(a=(INT,), s=(STRING,), d=(TS, DAY))
    row, parts = table.row(0, b"ab", 0), table.parts(0, b"ab", 0)

    def ask(change, told=3):
        group.alike_bytes(table.list, b"a<1", change(row), change(parts), told)

    ask(lambda bs: bs, 0)
    # how many
    for length in (0, 1, RECORD, 2 * RECORD, 3 * RECORD - 1):
        ask(lambda bs: bs[:length])
    for more in (b"\0", bytes(RECORD), missing_value()):
        ask(lambda bs: bs + more)
    ask(lambda bs: bs[RECORD:])
    # next; length; content after the length
    for place, (at, new) in itertools.product(range(3), ((0, b"\x01"), (1, b"\x01"), (3, b"\x01"), (RECORD - 1, b"\x01"))):
        ask(lambda bs: patched(bs, RECORD * place + at, new))
    for length in (0, 3, 5, 8, CONTENT + 1, MISSING - 1):
        ask(lambda bs: patched(bs, 2, struct.pack("<H", length)))
    for length in (1, CONTENT + 1, MISSING - 1):
        ask(lambda bs: patched(bs, RECORD + 2, struct.pack("<H", length)))
    # a mark with content
    for place, at in itertools.product(range(3), (0, 1, 4, RECORD - 1)):
        ask(lambda bs: patched(patched(bs, RECORD * place, missing_value()), RECORD * place + at, b"\x01"))
    # the order is the list's
    two = Table(a=(INT,), b=(INT,))
    for text, told in ((b"a<2", 0), (b"b<2", 1), (b"a=1 and b=2", 0), (b"a=2 or b=1", 1)):
        group.alike(two, text, (1, 2), told)
