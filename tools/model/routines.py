"""The routines: the holds-test, the projections and the transform of one value, bytes in and bytes out."""
import functools

from .codes import (
    SHEET_RECORDS, ANSWER_RECORDS, SHEET_ROOM, VALUE_ROOM, VOID, UNKNOWN, IS_NULL, NOT_NULL, NOT_NAN, UNARY, LT, LE, GT,
    GE, EQ, NOT_EQ, STARTS, NOT_STARTS, IN, NOT_IN, SETS, Refused, need, is_number, read_literal,
)
from .projections import steps, older_steps
from .sheets import check_head, read_sheet, read_value, check_utf8, value_record, answer_sheet
from .transforms import result_type, transformed


def meets(operator, column, literals, v):
    """The holds-test of a value, None for a missing one."""
    if v is None:
        return operator in (IS_NULL, NOT_EQ, NOT_IN, NOT_STARTS)
    if operator in UNARY:
        return operator in (NOT_NULL, NOT_NAN)
    if operator in SETS:
        return (v in literals) == (operator == IN)
    l = literals[0]
    if operator in (STARTS, NOT_STARTS):
        begins = not is_number(column) and v.startswith(l)
        return begins == (operator == STARTS)
    return {LT: v < l, LE: v <= l, GT: v > l, GE: v >= l, EQ: v == l, NOT_EQ: v != l}[operator]


def holds(sheet, value):
    try:
        operator, column, _, _, contents = read_sheet(sheet, ANSWER_RECORDS)
        content = read_value(value, column)
        check_utf8(column, contents + ([] if content is None else [content]))
    except Refused as refused:
        return refused.number
    v = None if content is None else read_literal(column, content)
    return 0 if meets(operator, column, [read_literal(column, bs) for bs in contents], v) else 1


def projected(question, sheet, room):
    """By a question's steps, which take a leaf."""
    if room < SHEET_ROOM:
        return 2, b""
    try:
        operator, column, transform, width, contents = read_sheet(sheet, SHEET_RECORDS)
        check_utf8(column, contents)
        result = result_type(column, transform)
        need(transform != UNKNOWN, 7)
        literals = [read_literal(column, bs) for bs in contents]
        predicate = question(operator, column, transform, width, literals)
    except Refused as refused:
        return refused.number, b""
    if predicate is None:
        return 1, b""
    return 0, answer_sheet(predicate[0], result, predicate[1])


def project(strict, sheet, room):
    return projected(functools.partial(steps, strict), sheet, room)


def strict_project_older(sheet, room):
    return projected(older_steps, sheet, room)


def transform(column, transform_number, width, value, room):
    if room < VALUE_ROOM:
        return 2, b""
    try:
        check_head(column, transform_number, width)
        content = read_value(value, column)
        check_utf8(column, [] if content is None else [content])
        result = result_type(column, transform_number)
        need(transform_number != UNKNOWN, 7)
        v = None
        if content is not None and transform_number != VOID:
            v = transformed(column, transform_number, width, read_literal(column, content))
    except Refused as refused:
        return refused.number, b""
    return 0, value_record(result, v)
