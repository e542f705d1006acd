"""Group 36, summaries: texts. 02's table line by line, by hand; and every two ends of a few texts beside every literal."""
import itertools

from model import (
    CONTENT, STRING, BINARY, IS_NULL, NOT_NULL, IS_NAN, NOT_NAN, LT, LE, GT, GE, EQ, NOT_EQ, STARTS, NOT_STARTS,
    ONE_LITERAL, IN, NOT_IN, OPERATORS, SKIP, READ,
)

from .file_cases import Files, windows
from .leaves import MISSING_MEETS, literals_for

# The literals of a leaf, and files that it skips and files that it reads, for either type.
TOLD = [
    (LT, [b"b"], [(b"b", b"c"), (b"b", b"b"), (b"b\0", b"c")], [(b"a", b"a"), (b"a", b"b"), (b"az", b"z"), (b"", b"")]),
    (LE, [b"b"], [(b"b\0", b"c"), (b"ba", b"ba")], [(b"b", b"b"), (b"b", b"c"), (b"az", b"c")]),
    (GT, [b"b"], [(b"a", b"b"), (b"b", b"b"), (b"", b"az")], [(b"b", b"b\0"), (b"a", b"ba"), (b"c", b"d")]),
    (GE, [b"b"], [(b"a", b"az"), (b"", b"")], [(b"a", b"b"), (b"b", b"b"), (b"a", b"c"), (b"c", b"d")]),
    (EQ, [b"b"], [(b"b\0", b"c"), (b"a", b"az")], [(b"b", b"b"), (b"a", b"b"), (b"b", b"c"), (b"a", b"c")]),
    (IN, [b"b", b"d"], [(b"", b"a"), (b"ba", b"c"), (b"da", b"e")], [(b"a", b"b"), (b"c", b"d"), (b"d", b"d"), (b"a", b"e")]),
    (IN, [], [(b"", b""), (b"", b"z"), (b"a", b"a")], []),
    (NOT_EQ, [b"b"], [(b"b", b"b")], [(b"b", b"b\0"), (b"a", b"b"), (b"a", b"a"), (b"b", b"c")]),
    (NOT_IN, [b"b", b"a"], [(b"a", b"a"), (b"b", b"b")], [(b"a", b"b"), (b"c", b"c"), (b"", b"a")]),
    (NOT_IN, [b"a", b"a\0"], [(b"a\0", b"a\0")], [(b"a", b"a\0")]),  # narrower: no other text lies between these two
    (NOT_IN, [], [], [(b"", b""), (b"", b"z"), (b"a", b"a")]),
    (STARTS, [b"ab"], [(b"a", b"aa"), (b"", b"a"), (b"aa", b"aaz")], [(b"a", b"ab"), (b"a", b"b"), (b"aa", b"abc"), (b"ab", b"b")]),
    (STARTS, [b"ab"], [(b"ac", b"b"), (b"b", b"b")], [(b"ab", b"ab"), (b"aba", b"abz"), (b"aba", b"c")]),
    (STARTS, [b""], [], [(b"", b""), (b"a", b"z")]),
    (NOT_STARTS, [b"ab"], [(b"ab", b"ab"), (b"ab", b"abz"), (b"aba", b"abc")], [(b"aa", b"abz"), (b"ab", b"ac"), (b"a", b"b")]),
    (NOT_STARTS, [b"ab"], [], [(b"a", b"ab"), (b"b", b"c"), (b"a", b"a")]),
    (NOT_STARTS, [b""], [(b"", b""), (b"a", b"z")], []),
    (IS_NULL, [], [(b"a", b"a"), (b"", b"z")], []),
    (NOT_NULL, [], [], [(b"a", b"a"), (b"", b"z")]),
    (IS_NAN, [], [(b"a", b"a"), (b"", b"z")], []),
    (NOT_NAN, [], [], [(b"a", b"a"), (b"", b"z")]),
]
LETTERS = [b"", b"a", b"ab", b"b"]
POINTS = [b"z", *(s.encode() for s in ("é", "éa", "€", "\U0001F600"))]
OCTETS = [b"", b"\0", b"\x7f", b"\x80", b"\xff"]
LONG_LOTS = [b"l" * (CONTENT - 1), b"l" * CONTENT, b"l" * (CONTENT - 1) + b"m"]


def texts(cases):
    group = Files(cases, 36)
    table(group)
    for column, operator in itertools.product((STRING, BINARY), OPERATORS):  # all are ruled out where none is present
        group.ask(operator, column, literals_for(operator, [b"", b"a"]), (), told=SKIP)
        group.ask(operator, column, literals_for(operator, [b"", b"a"]), (), True, READ if operator in MISSING_MEETS else SKIP)
    for ends, literal, operator in itertools.product(windows(LETTERS), LETTERS, ONE_LITERAL):
        group.either(operator, group.rng.choice((STRING, BINARY)), [literal], ends)
    for column, some in ((STRING, POINTS), (BINARY, OCTETS), (STRING, LONG_LOTS), (BINARY, LONG_LOTS)):
        for ends, literal in itertools.product(windows(some), some):
            group.either(group.rng.choice((*ONE_LITERAL, IN, NOT_IN)), column, [literal], ends)


def table(group):
    """Where a missing value meets the operator the file is read, whatever its ends."""
    for (operator, literals, skipped, read), column in itertools.product(TOLD, (STRING, BINARY)):
        for told, some in ((SKIP, skipped), (READ, read)):
            for ends in some:
                group.ask(operator, column, literals, ends, told=told)
            for ends in some[:1]:
                group.ask(operator, column, literals, ends, True, READ if operator in MISSING_MEETS else told)
