"""Group 26, filters: not. Each leaf is turned to its opposite operator, then projected."""
import itertools

from model import INT, STRING, TRUNCATE, filter_project, filter_row

from .tables import Group, Table

TURNED = [(b"<", b">="), (b"<=", b">"), (b">", b"<="), (b">=", b"<"), (b"=", b"!="), (b"!=", b"=")]
# Texts on an Int under Truncate 10, with a partition value: the inclusive answer and the strict one.
NOTS = [
    (b"not a >= -2147483640", 0, (8, 1)),
    (b"a < -2147483640", 0, (8, 1)),
    (b"not a < -2147483640", 0, (0, 8)),
    (b"not not a < -2147483640", 0, (8, 1)),
    (b"not not a >= -2147483640", 0, (0, 8)),
    # 300 has rows on both sides
    (b"a < 305", 300, (0, 1)),
    (b"not a < 305", 300, (0, 1)),
    (b"a = 305", 300, (0, 1)),
    (b"not a = 305", 300, (0, 1)),
    (b"a != 305", 300, (0, 1)),
    (b"not a != 305", 300, (0, 1)),
    (b"not a = 305", 290, (0, 0)),
    (b"not a != 305", 290, (1, 1)),
    (b"a startswith 305", 300, (1, 1)),
    (b"not a startswith 305", 300, (0, 1)),
    # and with or
    (b"not (a < 305 or a > 400)", 300, (0, 1)),
    (b"not (a < 300 or a > 400)", 300, (0, 0)),
    (b"not (a < 300 or a > 305)", 300, (0, 1)),
    (b"not (a < 300 and a > 400)", 200, (0, 0)),
    (b"not (a >= 300 and not a > 400)", 300, (1, 1)),
    (b"not not (a < 305 or a > 400)", 300, (0, 1)),
]


def nots(cases):
    group = Group(cases, 26)
    tens = Table(a=(INT, TRUNCATE, 10))
    for text, value, told in NOTS:
        group.parts(tens, text, (value,), told)
    # a turned leaf is answered as the one with the opposite sign
    for (sign, opposite), value in itertools.product(TURNED, (290, 300, 310, None)):
        text, other = b"not a%s305" % sign, b"a%s305" % opposite
        row, parts = tens.row(value), tens.parts(value)
        group.row(tens, text, (value,), filter_row(tens.list, other, row))
        group.parts(tens, text, (value,), [filter_project(strict, tens.list, other, parts) for strict in (False, True)])
    # that of startswith is NotStartsWith, which no text has
    for width, literal, value, told in (
        (2, b"ab", b"ab", (1, 1)),
        (2, b"ab", b"ac", (0, 0)),
        (2, b"abc", b"ab", (0, 1)),
        (2, b"abc", b"ac", (0, 0)),
        (4, b"ab", b"abc", (1, 1)),
        (4, b"ab", b"b", (0, 0)),
        (2, "é".encode(), "éa".encode(), (1, 1)),
        (2, b"a", None, (0, 0)),
    ):
        group.parts(Table(a=(STRING, TRUNCATE, width)), b"not a startswith '%s'" % literal, (value,), told)
