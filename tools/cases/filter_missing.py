"""Group 21 too, filters: Strings that are not UTF-8, and missing values."""
import itertools

from model import RECORD, CONTENT, INT, LONG, STRING, BINARY, TYPES, TRUNCATE, VOID, UNKNOWN, TRANSFORMS, SIGNS

from .leaves import patched
from .tables import Group, Table
from .values import BROKEN


def not_utf8(cases):
    """A String's value, named by a leaf or not; a Binary's is judged only where Unknown's String stands in its place."""
    group, table = Group(cases, 21), Table(a=(INT,), s=(STRING,))
    for i, bs in enumerate(BROKEN):
        group.alike(table, b"a<1" if i % 2 else b"s=''", (0, bs), 4)
        group.row(Table(y=(BINARY,)), b"y!=''", (bs,), 0)
    bad = b"\xff"
    for transform in TRANSFORMS:
        group.row(Table(a=(INT,), v=(STRING, transform)), b"a<1", (0, bad), 4)
        group.parts(Table(a=(INT,), v=(STRING, transform)), b"a<1", (0, bad), (4, 4))
        group.row(Table(a=(INT,), v=(BINARY, transform)), b"a<1", (0, bad), 0)
        group.parts(Table(a=(INT,), v=(BINARY, transform)), b"a<1", (0, bad), 2 * [4 if transform == UNKNOWN else 0])
    group.parts(Table(a=(INT,), v=(LONG, UNKNOWN)), b"a<1", (0, bad), (4, 4))
    group.parts(Table(a=(INT,), v=(LONG, UNKNOWN)), b"a<1", (0, b"z" * CONTENT), (0, 0))
    # 3 of any value before 4 of any
    for place in (0, RECORD):
        two = Table(s=(STRING,), t=(STRING,))
        group.alike_bytes(two.list, b"s=''", *2 * [patched(two.row(bad, bad), place, b"\x01")], 3)


def filters_of_missing(cases):
    """A missing value meets != and, under not, = and startswith; where a projection gives no predicate, it is not asked."""
    group = Group(cases, 21)
    met = (b"", b"!="), (b"not ", b"="), (b"not ", b"startswith"), (b"not not ", b"!=")
    for column in TYPES:
        literal = b"5" if column < STRING else b"'5'"
        for word, sign in itertools.product((b"", b"not ", b"not not "), SIGNS):
            group.row(Table(v=(column,)), b"%sv %s %s" % (word, sign, literal), (None,), 0 if (word, sign) in met else 1)
    table = Table(v=(INT, TRUNCATE, 10), a=(INT,))
    for text, told in (
        (b"v<5", (1, 1)),
        (b"not v<5", (1, 1)),
        (b"v=5", (1, 1)),
        (b"v!=5", (0, 0)),
        (b"not v=5", (0, 0)),
        (b"not v!=5", (1, 1)),
        (b"v startswith 5", (1, 1)),
        (b"not v startswith 5", (0, 1)),
        (b"v<5 or a<1", (0, 0)),
        (b"not(v<5 and a<1)", (1, 1)),
        (b"not(v=5 and a<1)", (0, 0)),
        (b"v!=5 and a<1", (0, 0)),
        (b"v!=5 and a>=1", (1, 1)),
    ):
        group.parts(table, text, (None, 0), told)
    for text in (b"v<5", b"not v<5", b"v=5", b"not v=5", b"v startswith 5", b"not v startswith 5"):
        group.parts(Table(v=(INT, VOID)), text, (None,), (0, 1))
        group.parts(Table(v=(INT, VOID)), text, (5,), (0, 1))
