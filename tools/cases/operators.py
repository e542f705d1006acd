"""Group 11: every operator, type and transform."""
import itertools
import random

from model import (
    CONTENT, INT, LONG, STRING, BINARY, TYPES, IDENTITY, TRUNCATE, VOID, UNKNOWN, TRANSFORMS, UNARY, LT, LE, GT, GE, EQ,
    NOT_EQ, STARTS, NOT_STARTS, SETS, OPERATORS, range_of,
)

from .leaves import leaf, literals_for
from .values import WIDTHS, NUMBER_PAIRS, TEXTS, BLOBS, lot_starts, ends, moments_of, valid, edge_literals

COMPARISONS = [(strict, operator) for strict in (False, True) for operator in (LT, LE, GT, GE)]
NEED_T = COMPARISONS + [(False, EQ), (True, NOT_EQ)]  # questions whose answer needs T of a number
NO_T = [(True, EQ), (False, NOT_EQ), (True, STARTS), (True, NOT_STARTS)]


def every_operator(cases):
    """Each operator with each type and transform, both questions: the pairs whose answer is the same for all, and Identity."""
    turn = 0
    for column, transform in itertools.product(TYPES, TRANSFORMS):
        if valid(column, transform) and transform not in (IDENTITY, VOID, UNKNOWN):
            continue
        values = edge_literals(column)
        for operator in OPERATORS:
            turn += 3
            some = [values[(turn + i) % len(values)] for i in range(2)]
            width = WIDTHS[turn % len(WIDTHS)] if transform == TRUNCATE else 0
            cases.both(11, leaf(operator, column, literals_for(operator, some), transform, width))


def every_number(cases):
    rng = random.Random(2)
    for at, (column, transform) in enumerate(NUMBER_PAIRS):
        width = 10 if transform == TRUNCATE else 0

        def ask(strict, operator, *literals):
            cases.project(11, strict, leaf(operator, column, literals, transform, width))

        for strict, operator in itertools.product((False, True), UNARY):
            ask(strict, operator)
        after, before = lot_starts(column, transform)
        for literal, question in itertools.product((after, after - 1, before, before - 1), NEED_T):
            ask(*question, literal)
        for operator, literal in ((LT, 0), (LE, 0), (EQ, 0), (LE, -1), (EQ, -1)):  # where lifting begins
            ask(False, operator, literal)
        for question in NO_T + [(False, STARTS), (False, NOT_STARTS)]:
            ask(*question, before)
        for i, (end, question) in enumerate(itertools.product(ends(column, transform), NEED_T)):
            if (i + i // len(NEED_T) + at) % 2 == 0:
                ask(*question, end)
        others = rng.sample(moments_of(column, transform), len(NEED_T))
        for literal, question in zip(others, NEED_T):
            ask(*question, literal)


def every_width(cases):
    for column, width in itertools.product((INT, LONG), WIDTHS):
        kinds = range_of(column)
        literals = itertools.cycle([kinds[0], -1, 0, 1, -width, width, kinds[0] + width, kinds[0] + width - 1, 9, -11, kinds[-1]])
        for strict, operator in NEED_T:
            literal = next(z for z in literals if z in kinds)
            cases.project(11, strict, leaf(operator, column, [literal], TRUNCATE, width))


def every_text(cases):
    for column, texts in ((STRING, TEXTS), (BINARY, BLOBS)):
        for operator in UNARY:
            cases.both(11, leaf(operator, column, [], TRUNCATE, 2))
        for text, width in itertools.product(texts, (0, 1, 2, 3)):
            for operator in (STARTS, NOT_STARTS):
                cases.both(11, leaf(operator, column, [text], TRUNCATE, width))
        others = itertools.cycle(itertools.product(texts, (*range(4), CONTENT, 2**32 - 1)))
        for operator in (LT, LE, GT, GE, EQ, NOT_EQ, *SETS):
            for _ in range(5):
                text, width = next(others)
                next(others)
                cases.both(11, leaf(operator, column, literals_for(operator, [text, b"a"]), TRUNCATE, width))
