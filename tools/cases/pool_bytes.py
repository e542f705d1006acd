"""Group 42, pooled summaries: one byte damaged. Every byte of either summary; every type and flag."""
import itertools

from model import RECORD, TYPE_AT, FLAG_AT, INT, STRING, TYPES, summary_of

from .leaves import patched
from .pool_cases import Pools

# Two that share an end, so that a change of it shows in whose it is; and two without.
NUMBERS = summary_of(INT, (-2, 300), True), summary_of(INT, (-2, 7), False)
TEXTS = summary_of(STRING, (b"ab", b"c\xc3\xa9"), False), summary_of(STRING, (b"abc", b"c\xc3\xa9"), False)
NONE = summary_of(INT, (), True), summary_of(INT, (), False)


def pool_bytes(cases):
    group = Pools(cases, 42)
    for two, whose, at in itertools.product((NUMBERS, TEXTS), (0, 1), range(TYPE_AT)):
        content = at % RECORD in range(4, 8)
        for turned in (1, 64, 128) if content else [group.rng.choice((1, 2, 128))]:
            changed(group, two, whose, at, two[whose][at] ^ turned)
    for two, whose in itertools.product((NUMBERS, TEXTS, NONE), (0, 1)):
        for new in (*range(TYPES[-1] + 2), 128, 255):
            changed(group, two, whose, TYPE_AT, new, None if new in TYPES else (3,))
        for new in (*range(6), 128, 255):
            changed(group, two, whose, FLAG_AT, new, None if new < 4 else (3,))


def changed(group, two, whose, at, new, told=None):
    """One byte of one of the two."""
    first, second = (patched(bs, at, bytes([new])) if which == whose else bs for which, bs in enumerate(two))
    group.bytes(first, second, told)
