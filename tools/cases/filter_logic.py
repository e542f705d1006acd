"""Groups 19 and 25, filters: document 02's example; precedence."""
import itertools

from model import INT, TS, STRING, TRUNCATE, DAY, VOID

from .tables import Group, Table

EXAMPLE = b"lot startswith 'ab' and not (grams < 300 or grams = 500)"  # 02's
WEIGHINGS = Table(lot=(STRING, TRUNCATE, 2), grams=(INT, TRUNCATE, 10))


def example(cases):
    group = Group(cases, 19)
    for lot, grams, told in (
        (b"ab12", 300, 0),
        (b"ab", 300, 0),
        (b"ab12", 299, 1),
        (b"ab12", 500, 1),
        (b"ab12", 499, 0),
        (b"ab12", 501, 0),
        (b"ab12", -1, 1),
        (b"ab12", 2**31 - 1, 0),
        (b"a", 300, 1),
        (b"aB12", 300, 1),
        (b"", 300, 1),
        (b"xab", 500, 1),
        (None, 300, 1),
        (b"ab12", None, 1),
        (None, None, 1),
    ):
        group.row(WEIGHINGS, EXAMPLE, (lot, grams), told)
    for lot, grams, told in (
        (b"ab", 300, (0, 0)),
        (b"ab", 290, (1, 1)),
        (b"ab", 500, (0, 1)),
        (b"ab", 510, (0, 0)),
        (b"ab", 490, (0, 0)),
        (b"ab", -10, (1, 1)),
        (b"a", 300, (1, 1)),
        (b"ac", 300, (1, 1)),
        (b"", 300, (1, 1)),
        (None, 300, (1, 1)),
        (b"ab", None, (1, 1)),
    ):
        group.parts(WEIGHINGS, EXAMPLE, (lot, grams), told)
    # other columns, in which the same text is read
    for table in (Table(grams=(INT,), lot=(STRING,)), Table(lot=(STRING, VOID), grams=(INT, TRUNCATE, 100), day=(TS, DAY))):
        for lot, grams in itertools.product((b"ab12", b"b", None), (299, 300, 500, None)):
            given = [lot if column == STRING else grams if column == INT else 0 for column in table.types]
            group.row(table, EXAMPLE, given)
            group.parts(table, EXAMPLE, given)


# ---- precedence. Python binds these words as document 02 does, so it says what each text is, for all values of three columns.

JOINED = [
    "a=1 or b=1 and c=1", "a=1 and b=1 or c=1", "a=1 or b=1 or c=1", "a=1 and b=1 and c=1", "a=1 and b=1 or c=1 and a=1",
    "not a=1 and b=1", "not a=1 or b=1", "a=1 and not b=1 or c=1", "a=1 or not b=1 and c=1", "not a=1 and not b=1 or not c=1",
    "not not a=1 and b=1", "not not not a=1 or b=1 and c=1", "a=1 or b=1 and not c=1 or a=1 and c=1",
    "(a=1 or b=1) and c=1", "a=1 and (b=1 or c=1)", "(a=1 and b=1) or c=1", "a=1 or (b=1 and c=1)", "not (a=1 and b=1) or c=1",
    "not (a=1 or b=1) and c=1", "not (a=1 or b=1 and c=1)", "not (a=1 and not (b=1 or not c=1))", "not ((a=1) or not (b=1)) or c=1",
    "((a=1 or b=1) and (b=1 or c=1)) and not (a=1 and b=1 and c=1)", "not not (a=1 or not b=1) and not c=1",
]
THREE = Table(a=(INT,), b=(INT,), c=(INT,))


def precedence(cases):
    group = Group(cases, 25)
    for text, (a, b, c) in itertools.product(JOINED, itertools.product((0, 1), repeat=3)):
        told = 0 if eval(text.replace("=", "=="), {"a": a, "b": b, "c": c}) else 1
        group.alike(THREE, text.encode(), (a, b, c), told)
