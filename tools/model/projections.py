"""The projections: a leaf to operator and literals, or None for no predicate."""
from .codes import (
    TS, BINARY, IDENTITY, YEAR, MONTH, DAY, VOID, UNARY, LT, LE, GT, GE, EQ, NOT_EQ, STARTS, NOT_STARTS, IN, NOT_IN,
    need, is_number, range_of,
)
from .transforms import transformed

INCLUSIVE = {LT: (LE, -1), LE: (LE, 0), GT: (GE, 1), GE: (GE, 0)}
STRICT = {LT: (LT, 0), LE: (LT, 1), GT: (GT, 0), GE: (GT, -1)}


def steps(strict, operator, column, transform, width, literals):
    if transform == VOID:
        return None
    if operator in UNARY or transform == IDENTITY:
        return operator, literals
    if operator in (EQ, IN) and strict or operator in (NOT_EQ, NOT_IN) and not strict:
        return None

    def t(v):
        return transformed(column, transform, width, v)

    if not is_number(column):
        return text_steps(strict, operator, column, width, literals, t)
    return number_steps(strict, operator, column, literals, t, not strict and is_lifted(column, transform))


def is_lifted(column, transform):
    return transform in (YEAR, MONTH) or (transform, column) == (DAY, TS)


def number_steps(strict, operator, column, literals, t, lifted):
    if operator in (STARTS, NOT_STARTS):
        return None if strict else (operator, [t(literals[0])])
    if operator in (EQ, NOT_EQ, IN, NOT_IN):
        found = [t(l) for l in literals]
        above = [v + 1 for v in found if lifted and v < 0]
        return IN if operator == EQ and above else operator, found + above
    asked, step = (STRICT if strict else INCLUSIVE)[operator]
    moved = literals[0] + step
    need(moved in range_of(column), 8)
    v = t(moved)
    return asked, [v + 1 if lifted and asked == LE and v < 0 else v]


def text_steps(strict, operator, column, width, literals, t):
    if operator in (STARTS, NOT_STARTS):
        return prefix_steps(strict, operator, column, width, literals[0], t)
    if operator in (EQ, NOT_EQ, IN, NOT_IN):
        return operator, [t(l) for l in literals]
    return (STRICT if strict else INCLUSIVE)[operator][0], [t(literals[0])]


def prefix_steps(strict, operator, column, width, l, t):
    """A literal as long as the width is compared whole, but for a Binary's inclusive question: 02 keeps its operator."""
    n = len(l) if column == BINARY else len(l.decode("utf-8"))
    if n == width and (strict or column != BINARY):
        return EQ if operator == STARTS else NOT_EQ, [l]
    if n <= width:
        return operator, [l]
    if (operator == STARTS) == strict:
        return None
    return operator, [t(l)]


# ---- 02's third question


def older_steps(operator, column, transform, width, literals):
    """Strict for older files: "the strict answer, but ..", and "for other transforms it equals strict"."""
    predicate = steps(True, operator, column, transform, width, literals)
    return older(*predicate) if predicate and is_lifted(column, transform) else predicate


def older(operator, literals):
    """02: "a bound after > rises by one where it is negative, NotEq with a negative value becomes NotIn of it and the next, and
    NotIn gains the next of each negative value"."""
    nexts = [v + 1 for v in literals if v < 0]
    if operator == GT:
        return operator, nexts or literals
    if operator in (NOT_EQ, NOT_IN):
        return NOT_IN if nexts else operator, literals + nexts
    return operator, literals
