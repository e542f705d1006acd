"""Group 28, filters: order of the answers. Each before every later one; and of refusals the leftmost."""
import itertools

from model import RECORD, TEXT_BYTES, NAME, LEAVES, BRACKETS, INT, LONG, TIME, STRING, TRUNCATE, DAY, UNKNOWN

from .filter_sizes import nested, side_by_side
from .leaves import patched
from .tables import Group, Table

# Columns whose leaves are refused, by the answer; b's are answered.
REFUSED = {5: b"t", 6: b"w", 7: b"u", 8: b"z"}
TABLE = Table(t=(TIME, DAY), w=(INT, TRUNCATE, 2**31), u=(LONG, UNKNOWN), z=(INT, TRUNCATE, 0), b=(INT,))
ROW, PARTS = TABLE.row(0, 0, 0, 0, 0), TABLE.parts(0, 0, b"", 0, 0)
PAIRS = b"%s<5 %s %s<5", b"not(%s<5 %s(not %s>5))", b"b=0 or(%s<5)%s b=0 and %s<5"
SMALL = Table(u=(LONG, UNKNOWN), s=(STRING,))


def first_of(*answers):
    return next(answer for answer in answers if answer is not None)


def order(cases):
    group = Group(cases, 28)
    every_pair(group)
    leftmost(group)
    not_refused(group)


def every_pair(group):
    """A list, values and a text, each sound or not, in all ways: what comes first is the answer."""
    lists = {None: SMALL.list, 3: patched(SMALL.list, NAME, b"\x01")}
    bad, next_ = (RECORD + 2, b"\x01\x00\xff"), (RECORD, b"\x01")
    changes = {None: [], 4: [bad], 3: [next_], (3, 4): [bad, next_]}
    leaves = side_by_side(b"u<1", LEAVES + 1)
    brackets = nested(b"u<1", BRACKETS + 1)
    texts = {  # of bytes, of the grammar, of leaves and brackets
        b"u<1": (None, None, None),
        b"u<1?": (None, 9, None),
        b"n<1 or u<1": (None, 9, None),
        leaves: (None, None, 10),
        brackets: (None, None, 10),
        leaves + b"?": (None, 9, 10),
        brackets + b" and u=''": (None, 9, 10),
        b"u<1".ljust(TEXT_BYTES + 1): (10, None, None),
        b"?" * (TEXT_BYTES + 1): (10, 9, None),
        leaves.ljust(TEXT_BYTES + 1, b"?"): (10, 9, 10),
    }
    for one, two, three in itertools.product(lists.items(), changes.items(), texts.items()):
        (of_list, columns), (of_values, changed), (text, of_text) = one, two, three
        row, parts = SMALL.row(0, b"x"), SMALL.parts(b"", b"x")
        for at, new in changed:
            row, parts = patched(row, at, new), patched(parts, at, new)
        before = of_list, 3 if of_values in (3, (3, 4)) else of_values, *of_text
        group.row_bytes(columns, text, row, first_of(*before, 0))
        if len(text) <= TEXT_BYTES:
            group.parts_bytes(columns, text, parts, 2 * [first_of(*before, 7)])
    long = b"u<1".ljust(TEXT_BYTES + 1)
    group.parts_bytes(SMALL.list, long, SMALL.parts(b"", b"x"), (10, 10))
    group.parts_bytes(SMALL.list, long, SMALL.parts(b"", b"\xff"), (4, 4))


def leftmost(group):
    """Whatever joins or turns the leaves, in brackets or not, and also where the left side decides."""
    def ask(text, told):
        group.parts_bytes(TABLE.list, text, PARTS, (told, told))

    for number, name in REFUSED.items():
        for text in (b"%s=0", b"not %s<5", b"b=0 or %s<5", b"b!=0 and %s<5", b"%s<5 or b=0", b"not(b=0 and(b!=0 or not %s>5))"):
            if text != b"%s=0" or number in (5, 7):
                ask(text % name, number)
    for (number, left), right in itertools.permutations(REFUSED.items(), 2):
        for word, text in itertools.product((b"and", b"or"), PAIRS):
            ask(text % (left, word, right[1]), number)
    for four in itertools.permutations(REFUSED):
        leaves = [REFUSED[number] + b"<5" for number in four]
        ask(b"b=0 or " + b" and ".join(leaves), four[0])
        ask(b"not(%s or %s)or(%s or %s)" % tuple(leaves), four[0])
        ask(b"b<1 and(b<0 and(b>0 and %s))or %s and %s or %s" % tuple(leaves), four[0])
    # of one column, by the leaf
    a = Table(a=(INT, TRUNCATE, 10))
    for text, told in (
        (b"a<300 or a< -2147483640", (8, 0)),
        (b"a< -2147483640 or a<300", (8, 0)),
        (b"a>300 or a>=-2147483648", (8, 8)),
        (b"a<= -2147483648 and a<300", (8, 8)),
    ):
        group.parts(a, text, (0,), told)


def not_refused(group):
    """A row is never refused for its column; a column that no leaf names never; an answer is not a refusal."""
    for name in REFUSED.values():
        group.row_bytes(TABLE.list, name + b"<5", ROW, 0)
        group.row_bytes(TABLE.list, b"not " + name + b"<5 or " + name + b">5", ROW, 1)
    group.row_bytes(TABLE.list, b" and ".join(name + b"=0" for name in REFUSED.values()), ROW, 0)
    for text, told in ((b"b<5", 0), (b"b>5", 1), (b"not b<5", 1)):
        group.parts_bytes(TABLE.list, text, PARTS, (told, told))
        group.row_bytes(TABLE.list, text, ROW, told)
