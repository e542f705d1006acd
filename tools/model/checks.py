"""The verdict and the pool held to 02's sentences over small worlds, with every leaf and every file of them; tools/make-cases
runs this first."""
import itertools

from .codes import (
    RECORD, TYPE_AT, VERDICT_ROOM, INT, STRING, BINARY, UNARY, ONE_LITERAL, NOT_IN, SETS, SKIP, WHOLE, literal_bytes,
)
from .pooling import pool, pooled_summary
from .routines import meets
from .sheets import sheet_of
from .summaries import summary_of
from .verdicts import all_between, some_between, number_verdict, text_verdict, test_summary


def leaves(literals, most):
    """Every operator with each literal, or each set of at most so many."""
    yield from ((operator, []) for operator in UNARY)
    yield from ((operator, [l]) for operator in ONE_LITERAL for l in literals)
    for count in range(most + 1):
        yield from ((operator, [*some]) for operator in SETS for some in itertools.combinations(literals, count))


def files(values):
    """Every two ends in order, and none; with a missing value and without one."""
    return [*itertools.product([(), *itertools.combinations_with_replacement(values, 2)], (False, True))]


def short_texts(most):
    return sorted(bytes(some) for n in range(most + 1) for some in itertools.product(b"ab", repeat=n))


def may_hold(ends, missing, v):
    return missing if v is None else bool(ends) and ends[0] <= v <= ends[1]


def check_numbers():
    """The values that stand for all give the verdict that all of them give."""
    for (operator, literals), file in itertools.product(leaves(range(-5, 6), 3), files(range(-4, 5))):
        told, found = (number_verdict(each, operator, INT, literals, *file) for each in (all_between, some_between))
        assert told == found, (operator, literals, file, told, found)


def check_texts():
    """02's table skips no file that may hold a matching value; and each other file, but where several literals are excluded. It
    takes none whole."""
    texts = short_texts(3)
    held = [(file, [v for v in [*texts, None] if may_hold(*file, v)]) for file in files(texts)]
    for operator, literals in leaves(texts, 2):
        met = {v: meets(operator, BINARY, literals, v) for v in [*texts, None]}
        for file, values in held:
            found, some = text_verdict(operator, BINARY, literals, *file), any(met[v] for v in values)
            assert found != WHOLE and not (found == SKIP and some), (operator, literals, file)
            assert found == SKIP or some or operator == NOT_IN and len(literals) > 1, (operator, literals, file)


def skips(sheet, summary):
    number, verdict = test_summary(sheet, summary, VERDICT_ROOM)
    assert number == 0, (sheet, summary)
    return verdict == bytes([SKIP])


def check_pools():
    """Of numbers, of Strings, and of Binaries that are no text."""
    check_every_two(INT, range(-2, 3), range(-3, 4))
    check_every_two(STRING, short_texts(2), short_texts(2))
    check_every_two(BINARY, [b"", b"\0", b"\x7f", b"\xff"], [b"", b"\0", b"\x80", b"\xff\0"])


def check_every_two(column, values, literals):
    """The pool of two files is the least that may hold what either may, in either order; an empty file adds nothing. What skips
    the pool skips each of the two. An end is the second's exactly where the first's is another."""
    world = {summary_of(column, *file): file for file in files(values)}
    held = {summary: {v for v in [*values, None] if may_hold(*file, v)} for summary, file in world.items()}
    sheets = [sheet_of(operator, column, [literal_bytes(column, l) for l in some]) for operator, some in leaves(literals, 2)]
    skipped = {summary: {sheet for sheet in sheets if skips(sheet, summary)} for summary in world}
    empty, ends = summary_of(column, (), False), (slice(RECORD), slice(RECORD, TYPE_AT))
    for first, second in itertools.product(world, world):
        found = pooled_summary(first, second)
        covering = [file for file in world if held[first] | held[second] <= held[file]]
        assert found in covering and all(held[found] <= held[file] for file in covering), (first, second)
        assert found == pooled_summary(second, first) and (second != empty or found == first), (first, second)
        assert skipped[found] <= skipped[first] & skipped[second], (first, second)
        assert [*pool(first, second)[1][:2]] == [found[end] != first[end] for end in ends], (first, second)
