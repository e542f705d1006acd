"""Filters at random: column lists, rows with their partition values, and texts; and one byte of them damaged."""
import collections

from model import (
    VALUE_ROOM, NAME, STRING, BINARY, TYPES, IDENTITY, TRUNCATE, VOID, TRANSFORMS, SIGNS, entry, is_number, part_type,
    transform, value_record,
)

from .filter_operators import literal_text
from .leaves import patched
from .values import NUMBER_PAIRS, edge_literals, ends, moments_of

NAMES = [b"a", b"b", b"lot", b"grams", b"an", b"nota", b"ora", b"day", b"startswithx", b"y" * NAME]
Column = collections.namedtuple("Column", "name type transform width near")


def random_pair(rng):
    """A type and a transform, mostly such as go together."""
    return rng.choice((
        *4 * [rng.choice(NUMBER_PAIRS)],
        *3 * [(rng.choice(TYPES), IDENTITY)],
        *2 * [(rng.choice((STRING, BINARY)), TRUNCATE)],
        (rng.choice((STRING, BINARY)), IDENTITY),
        (rng.choice(TYPES), rng.choice((VOID, *TRANSFORMS))),
    ))


def random_column(rng, name):
    """With a few values near each other, for literals and rows."""
    column, by = random_pair(rng)
    if (column, by) in NUMBER_PAIRS:
        some = moments_of(column, by) + ends(column, by)
    else:
        some = edge_literals(column) + (list(range(-3, 4)) if is_number(column) else [b"ab", b"abc", b"b"])
    at = rng.randrange(len(some))
    width = rng.choice((1, 2, 2, 3, 10)) if by == TRUNCATE else 0
    return Column(name, column, by, width, [some[(at + step) % len(some)] for step in range(4)])


class Weighings:
    """A column list, and a row with its partition values; or with others of their types, and then it is not `filed`."""

    def __init__(self, rng):
        names = rng.sample(NAMES, rng.choice((1, 1, 2, 2, 3)))
        self.columns = [random_column(rng, name) for name in names]
        self.list = b"".join(entry(*column[:4]) for column in self.columns)
        self.row, self.parts, self.filed = b"", b"", True
        for column in self.columns:
            row = value_record(column.type, rng.choice([*column.near, *column.near, None]))
            number, part = transform(*column[1:4], row, VALUE_ROOM)
            if number or rng.random() < 0.2:
                kind = part_type(column.type, column.transform)
                part, self.filed = value_record(kind, rng.choice(edge_literals(kind))), False
            self.row, self.parts = self.row + row, self.parts + part


def random_tokens(rng, columns, leaves, depth=0):
    """Words, signs, literals and brackets of a filter with so many leaves."""
    if rng.random() < 0.15:
        return [b"not", *random_tokens(rng, columns, leaves, depth)]
    if depth < 6 and rng.random() < (0.25 if leaves == 1 else 0.4):
        return [b"(", *random_tokens(rng, columns, leaves, depth + 1), b")"]
    if leaves == 1:
        column = rng.choice(columns)
        return [column.name, rng.choice(list(SIGNS)), literal_text(column.type, rng.choice(column.near))]
    left = rng.randrange(1, leaves)
    word = rng.choice((b"and", b"or"))
    return [*random_tokens(rng, columns, left, depth), word, *random_tokens(rng, columns, leaves - left, depth)]


def spaced(rng, tokens):
    """Spaces as they may stand; between letters there is one."""
    text = b""
    for token in tokens:
        if text[-1:].isalpha() and token[:1].isalpha() or rng.random() < 0.3:
            text += b" " * rng.choice((1, 1, 1, 2))
        text += token
    return text + b" " * (rng.random() < 0.1)


def random_filter(rng):
    weighings = Weighings(rng)
    return weighings, spaced(rng, random_tokens(rng, weighings.columns, rng.choice((1, 1, 2, 2, 3, 4, 5))))


def damaged(rng, bs, others=b" ()<>=!'-01anorts?"):
    """One byte changed, taken out, put in or doubled."""
    at = rng.randrange(len(bs))
    new = bytes([rng.choice(others) if rng.random() < 0.8 else rng.randrange(256)])
    return rng.choice((bs[:at] + new + bs[at + 1 :], bs[:at] + bs[at + 1 :], bs[:at] + new + bs[at:], bs[: at + 1] + bs[at:]))


def random_damage(rng):
    """List, text, row and partition values, one of them damaged: the text mostly, and of the others one byte in its place."""
    weighings, text = random_filter(rng)
    parts = [weighings.list, text, weighings.row, weighings.parts]
    which = rng.choice((0, 1, 1, 1, 1, 1, 1, 2, 3))
    if which == 1:
        parts[1] = damaged(rng, text)
    else:
        at = rng.randrange(len(parts[which]))
        parts[which] = patched(parts[which], at, bytes([parts[which][at] ^ 1 << rng.randrange(8)]))
    return parts
