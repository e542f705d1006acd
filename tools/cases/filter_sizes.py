"""Group 27, filters: sizes. As many bytes, leaves and open brackets as a filter may have, and more; long words and literals."""
from model import TEXT_BYTES, LEAVES, BRACKETS, INT, STRING

from .tables import Group, Table

TABLE, VALUES = Table(a=(INT,), s=(STRING,)), (0, b"x")
MANY = 4000  # bytes of a long word or literal


def nested(inner, depth):
    return b"(" * depth + inner + b")" * depth


def side_by_side(part, count, word=b"or"):
    return (b" " + word + b" ").join([part] * count)


def sizes(cases):
    group = Group(cases, 27)

    def ask(told, *texts):
        for text in texts:
            group.alike(TABLE, text, VALUES, told)

    def once(told, text):
        group.row(TABLE, text, VALUES, told)

    long_texts(once)
    leaves(ask)
    brackets(ask)


def long_texts(once):
    once(0, b"a<1".ljust(TEXT_BYTES))
    once(0, b"a<1".rjust(TEXT_BYTES))
    once(10, b"a<1".ljust(TEXT_BYTES + 1))
    once(10, b"a<1".rjust(TEXT_BYTES + 1))
    once(9, b"a<1?".ljust(TEXT_BYTES))
    once(10, b"a<1?".ljust(TEXT_BYTES + 1))
    for byte in b"?() 0a'":
        once(9, bytes([byte]) * TEXT_BYTES)
    once(10, b"(" * (TEXT_BYTES + 1))
    once(10, b"?" * 2 * TEXT_BYTES)
    half = (TEXT_BYTES - len(b"a<1")) // 2
    once(10, nested(b"a<1", half))
    once(9, nested(b"a<1", half)[:-1])
    once(9, nested(b"b<1", half))
    for count in (999, 1000, 1001, (TEXT_BYTES - len(b"a<1")) // len(b"not ")):
        once(count % 2, b"not " * count + b"a<1")
    once(9, b"not " * 1000)
    # digits: the number counts, and not how many there are
    zeros = b"7".rjust(MANY, b"0")
    once(0, b"a<" + zeros)
    once(0, b"a>-" + zeros)
    once(1, b"a>" + zeros)
    once(9, b"a<" + zeros[::-1])
    once(9, b"a!=" + b"7".rjust(MANY, b"1"))
    once(9, b"a!=-" + b"1".ljust(MANY, b"0"))
    once(9, b"a" * MANY + b"<1")
    once(9, b"s='" + b"a" * MANY + b"'")
    once(9, b"s!='" + b"a" * MANY)


def leaves(ask):
    most = LEAVES
    for word in (b"or", b"and"):
        ask(0, side_by_side(b"a<1", most - 1, word), side_by_side(b"a<1", most, word))
        ask(10, *(side_by_side(b"a<1", count, word) for count in (most + 1, most + 2, 3 * most)))
    full, over = side_by_side(b"a<1", most), side_by_side(b"a<1", most + 1)
    ask(0, nested(full, 1), b"not not(" + full + b")", side_by_side(b"(a<1)", most))
    ask(1, b"not(" + full + b")", side_by_side(b"not a<1", most))
    ask(10, nested(over, 1), b"not(" + over + b")", side_by_side(b"not not a<1", most + 1))
    ask(10, full + b"and not s=''", b"s=''or " + full)
    ask(10, nested(side_by_side(b"a<1", most - 1), 1) + b"and(a<1 or a<1)")
    # 9 comes before
    for after in (b"?", b" and", b" a<1", b" or b<1", b" or a<2147483648", b" or a=''", b" or s='\xff'", b")", b"(", b" or(a<1"):
        ask(9, over + after)
    ask(9, b"b<1 or " + over, b"(" + over, over.replace(b" or ", b" ", 1), b"? " + over)


def brackets(ask):
    most = BRACKETS
    for depth in (1, 2, most - 1, most):
        ask(0, nested(b"a<1", depth), b"not not" + nested(b"a<1", depth))
        ask(1, b"not" + nested(b"a<1", depth))
    for depth in (most + 1, most + 2, 3 * most):
        ask(10, nested(b"a<1", depth), b"not not" + nested(b"a<1", depth))
        ask(9, nested(b"a<1", depth)[:-1], nested(b"a<1", depth)[1:], nested(b"b<1", depth), nested(b"a<1?", depth))
    ask(0, b"not(" * most + b"a<1" + b")" * most)
    ask(10, b"not(" * (most + 1) + b"a<1" + b")" * (most + 1))
    # open at one place: those that are closed do not count
    full, over = nested(b"a<1", most), nested(b"a<1", most + 1)
    ask(0, side_by_side(b"(a<1)", most + 1), side_by_side(b"(a<1)", LEAVES), side_by_side(full, 2), side_by_side(full, 3, b"and"))
    ask(0, nested(side_by_side(b"(a<1)", most + 1), most - 1), nested(b"a<1 and" + nested(b"a<1", most // 2), most // 2))
    ask(10, full + b"or" + over, over + b"or" + full, over + b"and" + over, nested(side_by_side(b"(a<1)", 2), most))
    ask(10, side_by_side(over, LEAVES + 1), nested(side_by_side(b"a<1", LEAVES + 1), most + 1), full + b"and" + nested(full, 1))
