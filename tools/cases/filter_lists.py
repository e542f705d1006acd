"""Group 20, filters: column lists. Every rule broken once; what breaks none is read."""
import itertools
import struct

from model import (
    RECORD, BEFORE_WIDTH, AFTER_WIDTH, NAME, COLUMNS, ENTRY, INT, TRUNCATE, TRANSFORMS, WORDS, entry, value_record,
)

from .leaves import patched
from .tables import Group, Table

LETTERS = [bytes([letter]) for letter in range(ord("a"), ord("z") + 1)]


def named(*names):
    return b"".join(entry(name, INT) for name in names)


def names_that_break():
    yield from (b"", b"A", b"Ab", b"aB", b"1", b"a1", b"a_b", b"a b", b" a", b"a ", b"a-b", b"a'", b"\xc3\xa9", b"a\xff", *WORDS)
    # bytes after the zero fill
    yield from (b"a\0b", b"\0a", *(b"a".ljust(NAME - 1, b"\0") + last for last in (b"b", b"\x01")))
    # the last byte, and what stands beside the letters
    yield from (b"a" * (NAME - 1) + last for last in (b"A", b"1", b" ", b"{", b"`"))


def heads_that_break():
    """Where in a head, and the bytes there."""
    yield from ((0, b"\x01"), (1, b"\x01"))  # next
    yield from ((2, struct.pack("<H", operator)) for operator in (1, 101, 201, 301, 256))
    yield from ((4, bytes([column])) for column in (0, 11, 12, 255))
    yield from ((5, bytes([transform])) for transform in (8, 9, 255))
    yield from ((at, b"\x01") for at in (*BEFORE_WIDTH, AFTER_WIDTH[0], AFTER_WIDTH[1], AFTER_WIDTH[-1]))
    yield from ((5, bytes([transform, 0, 0, 1])) for transform in TRANSFORMS if transform != TRUNCATE)  # a width
    yield from ((at, b"\x80") for at in range(8, 12))


def column_lists(cases):
    group = Group(cases, 20)

    def ask(columns, text, told, count=None):
        values = value_record(INT, 0) * (len(columns) // ENTRY if count is None else count)
        group.alike_bytes(columns, text, values, values, told)

    numbers_of_columns(ask)
    names(ask)
    for place, (at, new) in itertools.product((0, 1), heads_that_break()):
        ask(patched(named(b"a", b"b"), ENTRY * place + NAME + at, new), b"a<1", 3)
    for transform in TRANSFORMS:
        group.alike(Table(b=(INT, transform), a=(INT,)), b"a<1", (None, 0), 0)
    for width in (0, 1, 2**31, 2**32 - 1):
        group.alike(Table(b=(INT, TRUNCATE, width), a=(INT,)), b"a<1", (5, 0), 0)
    # a leaf's column is the one of its name, whatever stands before it in the list
    some = b"a", b"aa", b"aaa", b"b", b"ab"
    for at, name in enumerate(some):
        for z in (0, 1):
            values = b"".join(value_record(INT, z if at == place else 1 - z) for place in range(len(some)))
            group.row_bytes(named(*some), name + b"=1", values, 1 - z)


def numbers_of_columns(ask):
    for count in (1, 2, COLUMNS - 1, COLUMNS):
        ask(named(*LETTERS[:count]), LETTERS[count - 1] + b"<1", 0)
    ask(b"", b"a<1", 3)
    ask(b"", b"", 3)
    ask(named(*LETTERS[: COLUMNS + 1]), b"a<1", 3)
    ask(named(*LETTERS[: COLUMNS + 1]), b"a<1", 3, COLUMNS)
    for columns in (named(b"a"), named(b"a", b"b"), named(*LETTERS[:COLUMNS])):
        for broken in (columns[:-1], columns[1:], columns[:-RECORD], *(columns + bytes(more) for more in (1, RECORD, ENTRY))):
            ask(broken, b"a<1", 3)


def names(ask):
    for letter in LETTERS:
        ask(named(letter), letter + b"<1", 0)
    for length in range(1, NAME + 1):
        ask(named(b"y" * length), b"y" * length + b"<1", 0)
        ask(named(b"y" * length), b"y" * (length + 1) + b"<1", 9)
    ask(patched(named(b"y" * NAME), NAME, b"y"), b"y" * (NAME + 1) + b"<1", 3)  # its last letter would be the head's next
    for name in (b"an", b"ands", b"o", b"ors", b"no", b"note", b"startswit", b"startswiths", b"in"):
        ask(named(name), name + b"<1", 0)
    for place, name in itertools.product(range(3), names_that_break()):
        ask(named(*[b"d", b"e"][:place], name, b"b"), b"b<1", 3)
    for twice in ((b"a", b"a"), (b"a", b"b", b"a"), (b"b", b"a", b"a"), (b"a", b"b", b"c", b"b"), (*LETTERS[: COLUMNS - 1], b"a")):
        ask(named(*twice), b"a<1", 3)
