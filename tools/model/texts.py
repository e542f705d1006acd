"""A filter's text: its tokens, its symbols (leaves, words and brackets), and these in postfix order. Bytes are judged first, then
the grammar, then leaves and brackets: 10, 9, 10."""
import collections
import re

from .codes import (
    CONTENT, TEXT_BYTES, LEAVES, BRACKETS, STRING, LT, LE, GT, GE, EQ, NOT_EQ, STARTS, need, is_number, range_of,
)
from .columns import AND, OR, NOT, STARTS_WITH
from .sheets import is_utf8

Leaf = collections.namedtuple("Leaf", "place operator literal")
TOKEN = re.compile(rb"(?P<word>[a-z]+)|(?P<sign>[<>!]=|[<>=])|(?P<decimal>-?[0-9]+)|'(?P<quoted>[^']*)'|(?P<bracket>[()])| +")
SIGNS = {b"<": LT, b"<=": LE, b">": GT, b">=": GE, b"=": EQ, b"!=": NOT_EQ, STARTS_WITH: STARTS}
OPEN, CLOSE = b"(", b")"
BINDING = {OR: 1, AND: 2, NOT: 3}  # the tightest has the highest


def tokens(text):
    """Kind and bytes of each; spaces only part them."""
    at = 0
    while at < len(text):
        found = TOKEN.match(text, at)
        need(found, 9)
        if found.lastgroup:
            yield found.lastgroup, found[found.lastgroup]
        at = found.end()


def fitted(column, kind, bs):
    """A literal in its column's type."""
    if kind == "decimal":
        z = int(bs)
        need(is_number(column) and z in range_of(column), 9)
        return z
    need(kind == "quoted" and not is_number(column) and len(bs) <= CONTENT, 9)
    need(column != STRING or is_utf8(bs), 9)
    return bs


def symbols(text, columns):
    """Words and brackets are their bytes, a leaf is a Leaf."""
    places = {column.name: place for place, column in enumerate(columns)}
    row = tokens(text)
    for kind, bs in row:
        if kind == "bracket" or kind == "word" and bs in BINDING:
            yield bs
            continue
        need(kind == "word" and bs in places, 9)
        place = places[bs]
        kind, sign = next(row, (None, None))
        need(kind in ("word", "sign") and sign in SIGNS, 9)
        yield Leaf(place, SIGNS[sign], fitted(columns[place].type, *next(row, (None, None))))


def postfix(row):
    """The symbols with each word behind what it joins or turns, and brackets left out: by two stacks, so at any depth."""
    out, waiting = [], []
    after = False  # whether a leaf or a closing bracket stands before, so that one more has to be joined
    for symbol in row:
        need(after == (symbol in (AND, OR, CLOSE)), 9)
        after = isinstance(symbol, Leaf) or symbol == CLOSE
        if isinstance(symbol, Leaf):
            out.append(symbol)
        elif symbol in (AND, OR, CLOSE):
            while waiting and BINDING.get(waiting[-1], 0) >= BINDING.get(symbol, 1):
                out.append(waiting.pop())
            if symbol != CLOSE:
                waiting.append(symbol)
            else:
                need(waiting, 9)
                waiting.pop()
        else:
            waiting.append(symbol)
    need(after and OPEN not in waiting, 9)
    return out + waiting[::-1]


def most_open(row):
    deepest = depth = 0
    for symbol in row:
        depth += {OPEN: 1, CLOSE: -1}.get(symbol, 0)
        deepest = max(deepest, depth)
    return deepest


def read_filter(text, columns):
    need(len(text) <= TEXT_BYTES, 10)
    row = list(symbols(text, columns))
    found = postfix(row)
    need(sum(isinstance(symbol, Leaf) for symbol in row) <= LEAVES, 10)
    need(most_open(row) <= BRACKETS, 10)
    return found
