"""Group 29, filters: every operator, type and transform."""
import itertools
import random

from model import VALUE_ROOM, TYPES, TRUNCATE, TRANSFORMS, SIGNS, is_number, part_type, transform, value_record

from .leaves import missing_value
from .tables import Group, Table
from .values import NUMBER_PAIRS, edge_literals, ends, moments_of


def literal_text(column, literal):
    return b"%d" % literal if is_number(column) else b"'%s'" % literal


def part_records(column, by, width, values):
    """The partition values of those that have one, and some others of their type."""
    answers = [transform(column, by, width, value_record(column, v), VALUE_ROOM) for v in values]
    kind = part_type(column, by)
    others = [value_record(kind, v) for v in edge_literals(kind)]
    return [result for number, result in answers if number == 0] + others[::3] + [missing_value()]


def every_filter_operator(cases):
    group, rng = Group(cases, 29), random.Random(6)
    for column, by, sign, word in itertools.product(TYPES, TRANSFORMS, SIGNS, (b"", b"not ")):
        values = edge_literals(column)
        if (column, by) in NUMBER_PAIRS:
            values = rng.sample(moments_of(column, by), 6) + rng.sample(ends(column, by), 1)
        literal, width = rng.choice(values), rng.choice((0, 1, 2, 3, 10, 2**31)) if by == TRUNCATE else 0
        near = [literal, literal, rng.choice(values)]
        table, text = Table(a=(column, by, width)), b"%sa %s %s" % (word, sign, literal_text(column, literal))
        group.row(table, text, [rng.choice((*near, None))])
        group.parts_bytes(table.list, text, rng.choice(part_records(column, by, width, near)))
