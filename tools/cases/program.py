"""Group 18: what program `weighpick` prints. Short lines are written out, and the model has to agree; the others are the model's."""
import os

from model import (
    RECORD, CONTENT, LITERALS, LARGEST_SHEET, INT, LONG, DATE, TIME, TS, STRING, BINARY, TYPES, IDENTITY, TRUNCATE,
    YEAR, DAY, VOID, UNKNOWN, IS_NULL, NOT_NULL, LT, GT, GE, EQ, NOT_EQ, STARTS, IN, NOT_IN, OPERATORS,
)

from .leaves import leaf, literals_for
from .values import edge_literals, per_day

SAMPLE = leaf(LT, INT, [300], TRUNCATE, 10), "0 202 290", "0 201 300"  # 01's

# Leaf, and what follows the two questions.
LINES = [
    SAMPLE,
    # refusals, and no predicate
    (b"", "3", "3"),
    (leaf(IS_NULL, INT)[:-1], "3", "3"),
    (leaf(IS_NULL, INT) + b"\0", "3", "3"),
    (leaf(EQ, STRING, [b"\x80"]), "4", "4"),
    (leaf(EQ, TIME, [0], DAY), "5", "5"),
    (leaf(GE, TS, [2**63 - 1], YEAR), "6", "6"),
    (leaf(GT, TS, [2**63 - 1], YEAR), "8", "6"),
    (leaf(EQ, INT, [5], UNKNOWN), "7", "7"),
    (leaf(LT, INT, [-2147483640], TRUNCATE, 10), "8", "0 201 -2147483640"),
    (leaf(IS_NULL, STRING, [], VOID), "1", "1"),
    (leaf(EQ, INT, [15], TRUNCATE, 10), "0 205 10", "1"),
    (leaf(NOT_EQ, INT, [15], TRUNCATE, 10), "1", "0 206 10"),
    # no literal: a predicate that has none, and an empty set
    (leaf(NOT_NULL, DATE, [], YEAR), "0 102", "0 102"),
    (leaf(IN, INT), "0 301", "0 301"),
    (leaf(IN, STRING, [], TRUNCATE, 3), "0 301", "1"),
    (leaf(NOT_IN, LONG, [], TRUNCATE, 3), "1", "0 302"),
    # numbers
    (leaf(EQ, INT, [0]), "0 205 0", "0 205 0"),
    (leaf(EQ, INT, [-1], TRUNCATE, 10), "0 205 -10", "1"),
    (leaf(IN, INT, [2**31 - 1, -(2**31), 10, 9, -1, 9]), *2 * ["0 301 -2147483648 -1 9 10 2147483647"]),
    (leaf(IN, LONG, [2**63 - 1, -(2**63)]), *2 * ["0 301 -9223372036854775808 9223372036854775807"]),
    # the one above a negative number
    (leaf(EQ, DATE, [-1], YEAR), "0 301 -1 0", "1"),
    (leaf(IN, TS, [-1, -per_day(TS) - 1, 5], DAY), "0 301 -2 -1 0", "1"),
    # strings: lower-case hexadecimal, an empty one `-`
    (leaf(EQ, STRING, ["é".encode()]), "0 205 c3a9", "0 205 c3a9"),
    (leaf(EQ, STRING, [b""]), "0 205 -", "0 205 -"),
    (leaf(IN, STRING, [b"z", b"", b"-"]), "0 301 - 2d 7a", "0 301 - 2d 7a"),
    (leaf(GT, STRING, [b"abc"], TRUNCATE, 0), "0 204 -", "0 203 -"),
    (leaf(EQ, BINARY, [b"\x00\x0f\xf0\xff"]), "0 205 000ff0ff", "0 205 000ff0ff"),
    (leaf(STARTS, BINARY, [b"a"], TRUNCATE, 1), "0 207 61", "0 205 61"),
    # the longest sheet, and one that is too long
    (leaf(IS_NULL, INT).ljust(LARGEST_SHEET, b"\0"), "0 101", "0 101"),
    (leaf(IS_NULL, INT).ljust(LARGEST_SHEET + 1, b"\0"), "3", "3"),
    (b"\0" * (LARGEST_SHEET + RECORD), "3", "3"),
]


def lines(inclusive, strict):
    return f"inclusive {inclusive}\nstrict {strict}\n".encode()


def write_sample(folder):
    """01's sample, as what the gate runs program `weighpick` with."""
    sheet, inclusive, strict = SAMPLE
    for name, content in (("stdin", sheet), ("stdout", lines(inclusive, strict))):
        with open(os.path.join(folder, name), "wb") as out:
            out.write(content)


def program(cases):
    for sheet, inclusive, strict in LINES:
        cases.program(18, sheet, told=lines(inclusive, strict))
    for operator in OPERATORS:
        for column in TYPES:
            cases.program(18, leaf(operator, column, literals_for(operator, edge_literals(column))))
    # full sets: the longest strings, and numbers, the last of which give twice as many
    for operator in (IN, NOT_IN):
        cases.program(18, leaf(operator, STRING, [bytes([33 + i]) * CONTENT for i in range(LITERALS)], IDENTITY))
        cases.program(18, leaf(operator, LONG, [-(2**63) + i for i in range(LITERALS)], IDENTITY))
        cases.program(18, leaf(operator, DATE, [-730 * i - 366 for i in range(LITERALS)], YEAR))
