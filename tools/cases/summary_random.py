"""Group 39, summaries: at random. Leaves as they are; and predicates returned for a leaf, with a file that has a row's partition
value."""
from model import (
    SHEET_ROOM, VALUE_ROOM, VERDICT_ROOM, STRING, TYPES, ONE_LITERAL, OPERATORS, UNARY, SKIP, WHOLE, holds, is_number,
    part_type, project, range_of, read_literal, read_value, summary_of, test_summary, transform, value_record,
)

from .file_cases import Files
from .leaves import leaf
from .random_filters import random_column
from .values import BLOBS, STRINGS, edges

STEPS = (0, 0, 1, 1, 2, 3, 5, 130, 2**20)


def summaries_at_random(cases):
    group = Files(cases, 39)
    for _ in range(200):
        random_leaf(group)
    found = 0
    while found < 200:
        found += returned_predicate(group)


def random_literals(rng, operator, values):
    count = 0 if operator in UNARY else 1 if operator in ONE_LITERAL else rng.randrange(6)
    return [rng.choice(values) for _ in range(count)]


def near_values(rng, column):
    """A few that are near each other."""
    if not is_number(column):
        return [b"", b"a", b"ab", b"abc", b"ac", b"b", "é".encode()]
    at = rng.choice(edges(column))
    return [z for z in range(at - 3, at + 4) if z in range_of(column)]


def random_ends(rng, column, values):
    """Around these, so that each of them lies between; none where there is no value."""
    if not values:
        return ()
    low, high = min(values), max(values)
    if is_number(column):
        kinds = range_of(column)
        return max(kinds[0], low - rng.choice(STEPS)), min(kinds[-1], high + rng.choice(STEPS))
    others = STRINGS if column == STRING else STRINGS + BLOBS
    return rng.choice([t for t in others if t <= low] + [low]), rng.choice([t for t in others if high <= t] + [high])


def random_leaf(group):
    """Literals and ends near each other; now and then the ends are out of order."""
    rng = group.rng
    column, operator = rng.choice(TYPES), rng.choice(OPERATORS)
    values = near_values(rng, column)
    ends = random_ends(rng, column, [rng.choice(values)] * (rng.random() < 0.9))
    group.either(operator, column, random_literals(rng, operator, values), ends[::-1] if rng.random() < 0.05 else ends)


def returned_predicate(group):
    """Whether there is one, and the row has a partition value."""
    rng = group.rng
    column = random_column(rng, b"a")
    operator, strict = rng.choice(OPERATORS), rng.random() < 0.5
    sheet = leaf(operator, column.type, random_literals(rng, operator, column.near), column.transform, column.width)
    row = value_record(column.type, rng.choice((*column.near, *column.near, None)))
    number, predicate = project(strict, sheet, SHEET_ROOM)
    refused, part = transform(*column[1:4], row, VALUE_ROOM)
    if number or refused:
        return False
    kind = part_type(column.type, column.transform)
    content = read_value(part, kind)
    missing = content is None or rng.random() < 0.5
    file = summary_of(kind, random_ends(rng, kind, [] if content is None else [read_literal(kind, content)]), missing)
    assert not loses(strict, sheet, row, predicate, file), (strict, sheet, row, predicate, file)
    group.bytes(predicate, file)
    return True


def loses(strict, sheet, row, predicate, file):
    """Whether a file is skipped that has a row to be found, or taken whole with one that is not."""
    meets = holds(sheet, row) == 0
    verdict = test_summary(predicate, file, VERDICT_ROOM)
    return verdict == (0, bytes([WHOLE])) and not meets if strict else verdict == (0, bytes([SKIP])) and meets
