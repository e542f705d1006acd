"""Groups 30 and 31, filters: at random; and with one byte damaged."""
import random

from model import filter_project, filter_row

from .random_filters import random_damage, random_filter
from .tables import Group


def loses(weighings, text):
    """Against 02's "A whole filter loses no row that meets it, and strictly lets in none that fails"."""
    row = filter_row(weighings.list, text, weighings.row)
    inclusive, strict = (filter_project(strict, weighings.list, text, weighings.parts) for strict in (False, True))
    return weighings.filed and (row == 0 and inclusive not in (0, 6, 8) or strict == 0 and row != 0)


def at_random(cases):
    group, rng = Group(cases, 30), random.Random(7)
    for _ in range(2000):
        weighings, text = random_filter(rng)
        assert not loses(weighings, text), (weighings.list, text, weighings.row, weighings.parts)
        group.alike_bytes(weighings.list, text, weighings.row, weighings.parts)


def one_byte_damaged(cases):
    group, rng = Group(cases, 31), random.Random(8)
    for turn in range(1000):
        columns, text, row, parts = random_damage(rng)
        if turn % 3:
            cases.filter_project(group.number, turn % 3 == 1, columns, text, parts)
        else:
            group.row_bytes(columns, text, row)
