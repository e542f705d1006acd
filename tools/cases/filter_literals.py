"""Groups 23 and 24, filters: literals and their columns; and every byte at a few places."""
from model import CONTENT, INT, DATE, TS, STRING, TYPES, TRUNCATE, YEAR, DAY, is_number, range_of

from .tables import Group, Table
from .values import BROKEN, STRINGS


def literals(cases):
    group = Group(cases, 23)
    for column in TYPES:
        table = Table(a=(column,))
        if is_number(column):
            numbers(group, table, range_of(column))
        else:
            texts(group, table, column)
    # the literal is of the column's type, whatever its partition values are of
    for column, transform, literal, told in (
        (TS, YEAR, 2**40, (0, 0)),
        (TS, DAY, 2**40, (0, 0)),
        (TS, YEAR, 2**63, (9, 9)),
        (DATE, YEAR, 2**31, (9, 9)),
        (DATE, DAY, 2**31 - 1, (0, 0)),
        (INT, TRUNCATE, 2**31, (9, 9)),
    ):
        group.parts(Table(a=(column, transform)), b"a<%d" % literal, [-9], told)


def numbers(group, table, kinds):
    """The type's ends and what lies beyond, with zeros before it; and numbers that wrap to 5."""
    first, last = kinds[0], kinds[-1]
    for z in (first, first + 1, -1, 0, 1, last - 1, last):
        for text in (b"a=%d" % z, b"a=%s%025d" % (b"-" if z < 0 else b"", abs(z))):
            group.row(table, text, [z], 0)
        group.alike(table, b"a<%d" % z, [z], 1)
        group.alike(table, b"not a<%d" % z, [z], 0)
    for z in (first - 1, last + 1, 10 * last, 10 * first, 2**32 - 5, 2**64 - 5, 2**32 + 5, 2**64 + 5, -(2**64) + 5, 2**65, 10**40):
        if z not in kinds:
            group.alike(table, b"a=%d" % z, [5], 9)
            group.row(table, b"a!=%s%045d" % (b"-" if z < 0 else b"", abs(z)), [5], 9)
    # 207 of a number holds of none; text goes with none
    for text, told in ((b"a startswith 5", 1), (b"not a startswith 5", 0), (b"a='5'", 9), (b"a=''", 9), (b"a startswith '5'", 9)):
        group.alike(table, text, [5], told)


def texts(group, table, column):
    """As long as a content is, and longer; UTF-8 and not; and no number."""
    lengths = [b"z" * CONTENT, "é".encode() * (CONTENT // 2), b"\t" * (CONTENT - 1)]
    for bs in STRINGS + lengths:
        group.alike(table, b"a='%s'" % bs, [bs], 0)
        group.row(table, b"a startswith'%s'" % bs, [bs], 0)
        group.row(table, b"not a<='%s'" % bs, [bs], 1)
    longer = [b"z" * (CONTENT + 1), "é".encode() * (CONTENT // 2) + b"z", b"z" * (CONTENT - 1) + "é".encode()]
    for bs in longer + [b"z" * 256, b"z" * 320]:
        group.alike(table, b"a='%s'" % bs, [bs[:CONTENT].decode(errors="ignore").encode()], 9)
    for bs in BROKEN:
        group.alike(table, b"a!='%s'" % bs, [b"a"], 9 if column == STRING else 0)
        group.row(table, b"a!='%s'" % (b"z" * (CONTENT - len(bs)) + bs), [b"a"], 9 if column == STRING else 0)
    for text in (b"a=5", b"a=-5", b"a=0", b"a startswith 5", b"not a startswith 5", b"a<99999999999999999999"):
        group.alike(table, text, [b"5"], 9)


def every_byte(cases):
    group = Group(cases, 24)
    number, text = Table(a=(INT,)), Table(a=(STRING,))
    for byte in range(256):
        b = bytes([byte])
        for before, after in ((b"", b"a<1"), (b"a", b"<1"), (b"a<", b"1"), (b"a<1", b""), (b"a<1", b"and a<2"), (b"not", b"a<1")):
            group.row(number, before + b + after, [0])
        group.row(text, b"a='" + b + b"'", [b if byte < 128 else b"a"])
