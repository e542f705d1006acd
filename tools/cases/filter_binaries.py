"""Group 32 too: filters over lots kept as Binary, each answer by hand."""
from model import CONTENT, INT, BINARY, TRUNCATE

from .binaries import E_ACUTE, WIDEST
from .filter_logic import EXAMPLE
from .tables import Group, Table

FULL = b"z" * CONTENT
# Width and text, and by the partition value the inclusive answer and the strict one, 0 for yes. Values longer than the width
# are of no row; they tell StartsWith from Eq.
PARTS = [
    # a literal shorter than the width, as long, longer
    (2, b"y startswith 'a'", {b"a": (0, 0), b"ab": (0, 0), b"b": (1, 1), b"": (1, 1), None: (1, 1)}),
    (2, b"y startswith 'ab'", {b"ab": (0, 0), b"abc": (0, 1), b"a": (1, 1), b"ac": (1, 1), None: (1, 1)}),
    (2, b"y startswith 'abc'", {b"ab": (0, 1), b"a": (1, 1), b"ac": (1, 1), None: (1, 1)}),
    (2, b"not y startswith 'a'", {b"a": (1, 1), b"ab": (1, 1), b"b": (0, 0), b"": (0, 0), None: (0, 0)}),
    (2, b"not y startswith 'ab'", {b"ab": (1, 1), b"abc": (1, 0), b"a": (0, 0), b"ac": (0, 0), None: (0, 0)}),
    (2, b"not y startswith 'abc'", {b"ab": (0, 1), b"a": (0, 0), b"ac": (0, 0), None: (0, 0)}),
    (2, b"y = 'a'", {b"a": (0, 1), b"ab": (1, 1), b"": (1, 1)}),
    (2, b"y = 'ab'", {b"ab": (0, 1), b"a": (1, 1), None: (1, 1)}),
    (2, b"y = 'abc'", {b"ab": (0, 1), b"ac": (1, 1), None: (1, 1)}),
    (2, b"y != 'a'", {b"a": (0, 1), b"ab": (0, 0), None: (0, 0)}),
    (2, b"y != 'ab'", {b"ab": (0, 1), b"a": (0, 0), None: (0, 0)}),
    (2, b"y != 'abc'", {b"ab": (0, 1), b"ac": (0, 0), None: (0, 0)}),
    (2, b"not y = 'abc'", {b"ab": (0, 1), b"ac": (0, 0), None: (0, 0)}),
    (2, b"not y != 'abc'", {b"ab": (0, 1), b"ac": (1, 1), None: (1, 1)}),
    (2, b"y < 'a'", {b"": (0, 0), b"a": (0, 1), b"aa": (1, 1), None: (1, 1)}),
    (2, b"y < 'ab'", {b"aa": (0, 0), b"ab": (0, 1), b"ac": (1, 1), None: (1, 1)}),
    (2, b"y < 'abc'", {b"aa": (0, 0), b"ab": (0, 1), b"ac": (1, 1), None: (1, 1)}),
    (2, b"not y < 'abc'", {b"aa": (1, 1), b"ab": (0, 1), b"ac": (0, 0), None: (1, 1)}),
    (2, b"y <= 'abc'", {b"a": (0, 0), b"ab": (0, 1), b"b": (1, 1)}),
    (2, b"y > 'abc'", {b"a": (1, 1), b"ab": (0, 1), b"b": (0, 0)}),
    (2, b"y >= 'abc'", {b"a": (1, 1), b"ab": (0, 1), b"b": (0, 0)}),
    # width 0, under which each row is of the empty part
    (0, b"y startswith ''", {b"": (0, 0), None: (1, 1)}),
    (0, b"y startswith 'a'", {b"": (0, 1), None: (1, 1)}),
    (0, b"not y startswith ''", {b"": (1, 1), None: (0, 0)}),
    (0, b"not y startswith 'a'", {b"": (0, 1), None: (0, 0)}),
    (0, b"y = 'a'", {b"": (0, 1)}),
    (0, b"y != 'a'", {b"": (0, 1)}),
    (0, b"y < 'a'", {b"": (0, 1)}),
    # bytes are counted
    (1, b"y startswith '%s'" % E_ACUTE, {b"\xc3": (0, 1), b"\xc2": (1, 1), b"": (1, 1)}),
    (2, b"y startswith '%s'" % E_ACUTE, {E_ACUTE: (0, 0), b"\xc3": (1, 1)}),
    (1, b"not y startswith '%s'" % E_ACUTE, {b"\xc3": (0, 1), b"\xc2": (0, 0)}),
    (1, b"y = '\xff\x80'", {b"\xff": (0, 1), b"\x80": (1, 1)}),
    (1, b"y < '\xff\x80'", {b"\xff": (0, 1), b"\xfe": (0, 0)}),
    # the longest literal
    (CONTENT - 1, b"y startswith '%s'" % FULL, {FULL[1:]: (0, 1), FULL[2:]: (1, 1)}),
    (CONTENT, b"y startswith '%s'" % FULL, {FULL: (0, 0), FULL[1:]: (1, 1)}),
    (WIDEST, b"y = '%s'" % FULL, {FULL: (0, 1), FULL[1:]: (1, 1)}),
]


def filter_binaries(cases):
    group = Group(cases, 32)
    for width, text, answers in PARTS:
        for part, told in answers.items():
            group.parts(Table(y=(BINARY, TRUNCATE, width)), text, (part,), told)
    # why NotStartsWith has no predicate for a longer literal: the first of these rows is of the part "ab" too
    for row, told in ((b"abx", 0), (b"abc", 1), (b"abcd", 1), (b"ab", 0), (None, 0)):
        group.row(Table(y=(BINARY, TRUNCATE, 2)), b"not y startswith 'abc'", (row,), told)
    weighings = Table(lot=(BINARY, TRUNCATE, 2), grams=(INT, TRUNCATE, 10))
    for lot, grams, told in ((b"ab", 300, (0, 0)), (b"ab", 500, (0, 1)), (b"ab", 290, (1, 1)), (b"ac", 300, (1, 1))):
        group.parts(weighings, EXAMPLE, (lot, grams), told)
    # the leftmost refusal is another column's
    refused = Table(y=(BINARY, TRUNCATE, 2), z=(INT, TRUNCATE, 0))
    for text in (b"y='abc'or z<5", b"not(y startswith 'ab'and z<5)"):
        group.parts(refused, text, (b"ab", 0), (8, 8))
