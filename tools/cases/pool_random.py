"""Group 43, pooled summaries: at random. What skips the pool of two files skips each of them."""
from model import VERDICT_ROOM, STRING, TYPES, OPERATORS, SKIP, pool, pooled_summary, summary_of, test_summary

from .leaves import leaf, patched
from .pool_cases import Pools
from .summary_random import near_values, random_literals
from .values import BROKEN


def pools_at_random(cases):
    group = Pools(cases, 43)
    for _ in range(400):
        random_pool(group)


def random_file(rng, column, values):
    """Its ends are now and then out of order, not UTF-8, or none."""
    ends = sorted(rng.choices(values, k=2)) if rng.random() < 0.85 else []
    if ends and rng.random() < 0.03:
        ends.reverse()
    if ends and column == STRING and rng.random() < 0.1:
        ends[rng.randrange(2)] = rng.choice(BROKEN)
    return summary_of(column, ends, rng.random() < 0.5)


def random_pool(group):
    """Two files whose ends are near each other, mostly of one type; now and then a bit is turned."""
    rng = group.rng
    column = rng.choice(TYPES)
    values = near_values(rng, column)
    first, second = (random_file(rng, column, values) for _ in range(2))
    if rng.random() < 0.08:
        other = rng.choice(TYPES)
        second = random_file(rng, other, near_values(rng, other))
    if rng.random() < 0.05:
        at = rng.randrange(len(first))
        first = patched(first, at, bytes([first[at] ^ 1 << rng.randrange(8)]))
    operator = rng.choice(OPERATORS)
    assert not loses(leaf(operator, column, random_literals(rng, operator, values)), first, second), (operator, first, second)
    group.bytes(first, second)


def loses(sheet, first, second):
    """Whether it skips the pool, and not each of the two."""
    if pool(first, second)[0]:
        return False
    pooled, *two = (test_summary(sheet, file, VERDICT_ROOM) for file in (pooled_summary(first, second), first, second))
    return pooled == (0, bytes([SKIP])) and two != [pooled, pooled]
