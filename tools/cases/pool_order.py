"""Group 41, pooled summaries: refusals in order. 3, then 4, then 11, each of either file, then 12."""
import itertools

from model import STRING, TYPES, is_number, summary_of

from .pool_cases import SCALES, Pools
from .pool_forms import every_form
from .summary_order import BAD, summaries
from .values import BROKEN

ENDS = {column: (0, 1) if is_number(column) else (b"a", b"b") for column in TYPES}


def parts():
    """Summaries that are in form, and a few that are not."""
    some = [*summaries()]
    return [part for part in some if not part.malformed] + [part for part in some if part.malformed][1::3]


def in_order(first, second):
    """The first that applies, or None."""
    tests = {
        3: first.malformed or second.malformed,
        4: first.not_utf8 or second.not_utf8,
        11: first.unordered or second.unordered,
        12: first.type != second.type,
    }
    return next((refusal for refusal, test in tests.items() if test), None)


def pool_refusals(cases):
    group = Pools(cases, 41)
    for first, second in itertools.product(parts(), parts()):
        refusal = in_order(first, second)
        group.bytes(first.bytes, second.bytes, refusal and (refusal,))
    every_form(group)
    not_utf8(group)
    ends_out_of_order(group)
    every_two_types(group)
    neighbours(group)


def not_utf8(group):
    """4 of any end, before 11 and 12."""
    for bs in BROKEN:
        group.beside(summary_of(STRING, (b"", bs), True), summary_of(STRING, (b"a", b"b"), False), (4,))
        group.beside(summary_of(STRING, (bs, b""), False), summary_of(STRING, (), True), (4,))
    for column, ends in ENDS.items():
        group.beside(summary_of(STRING, (b"a", BAD), False), summary_of(column, ends, False), (4,))
        group.beside(summary_of(STRING, (BAD, BAD), False), summary_of(column, ends[::-1], False), (4,))


def ends_out_of_order(group):
    """11 of every two neighbours on a scale, turned."""
    for column, scales in SCALES.items():
        for scale in scales:
            for low, high in zip(scale, scale[1:]):
                group.beside(summary_of(column, (high, low), False), summary_of(column, (low, high), False), (11,))


def every_two_types(group):
    """12, or equal ends."""
    for (one, ends), (other, others) in itertools.product(ENDS.items(), ENDS.items()):
        told = (0, 0, 0, 0) if one == other else (12,)
        group.bytes(summary_of(one, ends, False), summary_of(other, others, False), told)


def neighbours(group):
    """11 before 12, and 12 also of files whose ends do not show the type: an empty one, and one of missing values alone."""
    for one, other in zip(TYPES, TYPES[1:]):
        turned = summary_of(one, ENDS[one][::-1], True)
        for ends in (ENDS[other], ENDS[other][::-1], ()):
            group.beside(turned, summary_of(other, ends, False), (11,))
        for ends in ((), ENDS[one]):
            group.beside(summary_of(one, ends, one % 2 == 0), summary_of(other, (), one % 2 == 1), (12,))
