"""Group 44, what a missing value meets: IsNull, NotEq, NotIn and NotStartsWith, and nothing else. Each answer by hand."""
import itertools

from model import (
    ANSWER_LITERALS, INT, LONG, DATE, STRING, BINARY, TYPES, TRUNCATE, LT, GE, EQ, NOT_EQ, STARTS, NOT_STARTS, IN, NOT_IN, SETS,
    OPERATORS, SKIP, READ, WHOLE, is_number,
)

from .file_cases import Files
from .leaves import MISSING_MEETS, leaf, literals_for, missing_value
from .tables import Group, Table

GROUP = 44
# Filters of rows without a lot, and of their partition values, both questions, under a width of 4: lots other than ab12 are
# asked for, and prefixes below, at and above the width.
UNLABELLED = [
    (b"lot != 'ab12'", 0, (0, 0)),
    (b"not lot = 'ab12'", 0, (0, 0)),
    (b"not lot startswith 'ab'", 0, (0, 0)),
    (b"not lot startswith 'ab12'", 0, (0, 0)),
    (b"not lot startswith 'ab123'", 0, (0, 0)),
    (b"lot = 'ab12' or not lot = 'ab12'", 0, (0, 0)),
    (b"lot = 'ab12'", 1, (1, 1)),
    (b"lot startswith 'ab12'", 1, (1, 1)),
    (b"not lot != 'ab12'", 1, (1, 1)),
    (b"lot < 'ab12' or lot >= 'ab12'", 1, (1, 1)),
]
# The leaf, the ends of a file, and what it is without a missing value and with one.
NUMBERS = [
    (NOT_EQ, [7], (7, 7), SKIP, READ),
    (NOT_EQ, [7], (8, 9), WHOLE, WHOLE),
    (NOT_EQ, [7], (6, 7), READ, READ),
    (NOT_IN, [3, 4, 5], (3, 5), SKIP, READ),
    (NOT_IN, [3, 4, 5], (6, 7), WHOLE, WHOLE),
    (NOT_IN, [], (-1, 1), WHOLE, WHOLE),
    (NOT_STARTS, [7], (7, 7), WHOLE, WHOLE),
    (EQ, [7], (7, 7), WHOLE, READ),
    (EQ, [7], (8, 9), SKIP, SKIP),
    (LT, [7], (5, 6), WHOLE, READ),
    (GE, [7], (5, 6), SKIP, SKIP),
]
TEXTS = [
    (NOT_EQ, [b"ab12"], (b"ab12", b"ab12"), SKIP, READ),
    (NOT_IN, [b"ab12", b"b"], (b"b", b"b"), SKIP, READ),
    (NOT_STARTS, [b"ab"], (b"ab", b"abz"), SKIP, READ),
    (EQ, [b"ab12"], (b"b", b"c"), SKIP, SKIP),
    (STARTS, [b"ab"], (b"b", b"c"), SKIP, SKIP),
    (IN, [b"ab12", b"b"], (b"c", b"d"), SKIP, SKIP),
]


def missing_values(cases):
    every_operator_and_type(cases)
    unlabelled(Group(cases, GROUP))
    flagged(Files(cases, GROUP))


def every_operator_and_type(cases):
    """Whatever the literals: sets of none, of one, of a few, and full ones."""
    for operator, column in itertools.product(OPERATORS, TYPES):
        values = [-7, 0] if is_number(column) else [b"", b"ab12"]
        some = [literals_for(operator, values), literals_for(operator, values[::-1])]
        if operator in SETS:
            some += [values[:1] * count for count in (0, 1, ANSWER_LITERALS)]
        for literals in some:
            told = 0 if operator in MISSING_MEETS else 1
            cases.holds(GROUP, leaf(operator, column, literals), missing_value(), told)


def unlabelled(group):
    for column, (text, row, parts) in itertools.product((STRING, BINARY), UNLABELLED):
        table = Table(lot=(column, TRUNCATE, 4))
        group.row(table, text, (None,), row)
        group.parts(table, text, (None,), parts)


def flagged(group):
    for columns, told in (((INT, LONG, DATE), NUMBERS), ((STRING, BINARY), TEXTS)):
        for column, (operator, literals, ends, without, with_missing) in itertools.product(columns, told):
            group.ask(operator, column, literals, ends, False, without)
            group.ask(operator, column, literals, ends, True, with_missing)
