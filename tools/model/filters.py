"""The routines of filters: a row, and partition values under either question."""
from .codes import UNKNOWN, LT, LE, GT, GE, EQ, NOT_EQ, STARTS, NOT_STARTS, Refused, need
from .columns import AND, OR, NOT, part_type, read_columns, read_values
from .projections import steps
from .routines import meets
from .texts import read_filter
from .transforms import result_type

OPPOSITE = {LT: GE, LE: GT, EQ: NOT_EQ, STARTS: NOT_STARTS}
OPPOSITE |= {turned: operator for operator, turned in OPPOSITE.items()}


def by_row(column, operator, literal, v):
    return meets(operator, column.type, [literal], v)


def by_part(strict):
    def ask(column, operator, literal, v):
        result = result_type(column.type, column.transform)
        need(column.transform != UNKNOWN, 7)
        predicate = steps(strict, operator, column.type, column.transform, column.width, [literal])
        return not strict if predicate is None else meets(predicate[0], result, predicate[1], v)

    return ask


def asked(ask, *leaf):
    """The leaf's answer, or its refusal, which counts only if the leaf is in the filter as it stands."""
    try:
        return ask(*leaf)
    except Refused as refused:
        return refused


def joined(join, *two):
    """The leftmost refusal, or the answers joined."""
    refusals = [x for x in two if isinstance(x, Refused)]
    return refusals[0] if refusals else join(two)


def answered(ask, columns, values, found):
    """A filter in postfix order. Each part of it has two answers here, as it stands and under a `not`, which exchanges them."""
    parts = []
    for symbol in found:
        if symbol == NOT:
            parts.append(parts.pop()[::-1])
        elif symbol in (AND, OR):
            b, a = parts.pop(), parts.pop()
            joins = (all, any) if symbol == AND else (any, all)
            parts.append([joined(join, x, y) for join, x, y in zip(joins, a, b)])
        else:
            place, operator, literal = symbol
            turned = OPPOSITE[operator]
            parts.append([asked(ask, columns[place], each, literal, values[place]) for each in (operator, turned)])
    return parts.pop()[0]


def filtered(ask, type_of, columns, text, values):
    try:
        declared = read_columns(columns)
        given = read_values([type_of(column) for column in declared], values)
        answer = answered(ask, declared, given, read_filter(text, declared))
    except Refused as refused:
        answer = refused
    return answer.number if isinstance(answer, Refused) else 0 if answer else 1


def filter_row(columns, text, values):
    return filtered(by_row, lambda column: column.type, columns, text, values)


def filter_project(strict, columns, text, values):
    return filtered(by_part(strict), lambda column: part_type(column.type, column.transform), columns, text, values)
