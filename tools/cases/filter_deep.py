"""Group 27 too: filters with more open brackets than they may have. What stands in them is read as well: 9 if it is no filter."""
import random

from model import BRACKETS

from .filter_sizes import TABLE, VALUES, nested
from .tables import Group

INNER = {
    10: [
        b"a<1", b" a<1 ", b"a<1 and a<2", b"not a<1", b"(a<1)", b"((a<1)or a<2)and not not a<3", b"a<1)or(a<1", b"s=')'",
        b"s='('", b"s=''", b"a<1 or s='not'", b"not(not a<1)", b"a startswith 1", b"a<1)and not(a<2", b"a<1))or((a<1",
        b"s!=')('and s!='?'",
    ],
    9: [
        b"", b" ", b"a", b"a<", b"1", b"'a'", b"a<1 and", b"and a<1", b"a<1 a<1", b"a<1 or or a<1", b"()", b"not", b"not not",
        b"(a<1", b"a<1)", b")(", b"a<1)(a<1", b"a<1(", b"a<1)a<1", b"a<1 not", b"a<1 not a<1", b"(a<1)(a<1)", b"(and)",
        b"a<1 or not", b"a<1 and()", b"a<1)or)or(a<1", b"a not<1", b"a<1 or(a<1", b"b<1", b"a=''", b"s=1", b"s='\xff'", b"s='",
        b"a<2147483648", b"a<1\t", b"A<1",
    ],
}
AFTER = {
    10: [b" ", b" and a<1", b"or a<1", b" or (a<1)", b"and not s=''", b" or " + nested(b"a<1", BRACKETS + 1)],
    9: [b" a<1", b" and", b"?", b")", b"(", b"(a<1)", b" or(", b" not", b" not a<1", b" or b<1", b"'", b" and or a<1", b" or()"],
}
SYMBOLS = [b"a<1", b"a<1", b"a<1", b"s=')'", b"and", b"and", b"or", b"or", b"not", b"(", b")", b"(a<1)", b")or(", b"b<1", b"s='('"]


def too_deep(cases):
    group = Group(cases, 27)

    def ask(told, *texts):
        for text in texts:
            group.alike(TABLE, text, VALUES, told)

    deep = nested(b"a<1", BRACKETS + 1)
    for told in INNER:
        ask(told, *(nested(inner, BRACKETS + 1) for inner in INNER[told]))
        ask(told, *(deep + after for after in AFTER[told]))
    ask(10, b"a<1 and " + deep, b"not" + deep, b"(a<1)or" + deep)
    ask(9, b"a<1 " + deep, b"a<1" + deep, b"and" + deep, b"(a<1)" + deep, b"a" + deep, b"()or" + deep, b"a<" + deep)
    rng = random.Random(5)
    for _ in range(300):
        row = b" ".join(rng.choice(SYMBOLS) for _ in range(rng.randrange(1, 6)))
        group.row(TABLE, nested(row, BRACKETS + rng.choice((0, 1, 1))), VALUES)
