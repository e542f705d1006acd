"""Group 32: lots kept as Binary. Each answer is the papers', by hand, and the model has to agree."""
from model import (
    CONTENT, LITERALS, BINARY, TRUNCATE, LT, LE, GT, GE, EQ, NOT_EQ, STARTS, NOT_STARTS, IN, NOT_IN,
)

from .leaves import leaf
from .published import told_value

# What a leaf becomes: the operators of its inclusive predicate and of its strict one, with T(L); None for none. As for strings:
COMPARED = {LT: (LE, LT), LE: (LE, LT), GT: (GE, GT), GE: (GE, GT), EQ: (EQ, None), NOT_EQ: (None, NOT_EQ)}
OF_SETS = {IN: (IN, None), NOT_IN: (None, NOT_IN)}
# By L's bytes beside the width; where they are as many, a String's inclusive predicates are Eq and NotEq:
SHORTER = {STARTS: (STARTS, STARTS), NOT_STARTS: (NOT_STARTS, NOT_STARTS)}
AS_LONG = {STARTS: (STARTS, EQ), NOT_STARTS: (NOT_STARTS, NOT_EQ)}
LONGER = {STARTS: (STARTS, None), NOT_STARTS: (None, NOT_STARTS)}

E_ACUTE, FULL, WIDEST = "é".encode(), bytes(range(CONTENT)), 2**32 - 1
# L, the width and T(L).
CUT = [
    (SHORTER, b"", 1, b""),
    (SHORTER, b"", WIDEST, b""),
    (SHORTER, b"a", 2, b"a"),
    (SHORTER, b"\x80", 2, b"\x80"),
    (SHORTER, b"a\0", 3, b"a\0"),
    (SHORTER, E_ACUTE, 3, E_ACUTE),
    (SHORTER, b"\xff\xfe", WIDEST, b"\xff\xfe"),
    (SHORTER, FULL, CONTENT + 1, FULL),
    (SHORTER, FULL, WIDEST, FULL),
    (AS_LONG, b"", 0, b""),
    (AS_LONG, b"\xff", 1, b"\xff"),
    (AS_LONG, b"ab", 2, b"ab"),
    (AS_LONG, E_ACUTE, 2, E_ACUTE),
    (AS_LONG, b"ab\0", 3, b"ab\0"),
    (AS_LONG, FULL, CONTENT, FULL),
    (LONGER, b"a", 0, b""),
    (LONGER, b"\x80", 0, b""),
    (LONGER, E_ACUTE, 1, b"\xc3"),
    (LONGER, b"abc", 2, b"ab"),  # 02's: "abx" doesn't start with it yet shares its two-byte part
    (LONGER, b"\xff\0\x80", 2, b"\xff\0"),
    (LONGER, E_ACUTE + E_ACUTE, 3, b"\xc3\xa9\xc3"),
    (LONGER, FULL, 0, b""),
    (LONGER, FULL, CONTENT - 1, bytes(range(CONTENT - 1))),
]
# A set's literals, the width, and their parts, ascending and each once.
SETS_CUT = [
    ([], 0, []),
    ([], 2, []),
    ([b"abc", b"ab", b"abd"], 2, [b"ab"]),
    ([b"b", b"abc", b"a", b""], 2, [b"", b"a", b"ab", b"b"]),
    ([b"b", b"abc", b"a", b""], 0, [b""]),
    ([b"\xff\x01", b"\x80", b"\x7f\x7f", b"\xff\0"], 1, [b"\x7f", b"\x80", b"\xff"]),
    ([b"\xff\x01", b"\x80", b"\x7f\x7f", b"\xff\0"], WIDEST, [b"\x7f\x7f", b"\x80", b"\xff\0", b"\xff\x01"]),
    ([b"a\0\0", b"a\x01", b"a", b"a\0"], 2, [b"a", b"a\0", b"a\x01"]),
    (["è".encode(), E_ACUTE, "ê".encode()], 1, [b"\xc3"]),
    ([bytes([255 - i // 2, i]) for i in range(LITERALS)], 1, [bytes([i]) for i in range(256 - LITERALS // 2, 256)]),
    (
        [bytes([255 - i]) * CONTENT for i in range(LITERALS)],
        CONTENT - 1,
        [bytes([i]) * (CONTENT - 1) for i in range(256 - LITERALS, 256)],
    ),
]


def binaries(cases):
    def ask(rules, literals, width, parts):
        for operator, questions in rules.items():
            for strict, asked in zip((False, True), questions):
                told = (0, leaf(asked, BINARY, parts)) if asked else (1, b"")
                cases.project(32, strict, leaf(operator, BINARY, literals, TRUNCATE, width), told=told)

    for by_length, literal, width, part in CUT:
        ask(COMPARED | by_length | OF_SETS, [literal], width, [part])
        told_value(cases, 32, BINARY, TRUNCATE, width, literal, 0, part)
    for literals, width, parts in SETS_CUT:
        ask(OF_SETS, literals, width, parts)
    for width in (0, 1, 2, CONTENT, WIDEST):
        told_value(cases, 32, BINARY, TRUNCATE, width, None, 0, None)
