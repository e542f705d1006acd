"""Document 01's numbers: sizes, types, transforms, operators and refusals; and a type's literals as bytes. Sizes of filters and of
summaries."""

RECORD, CONTENT_AT, MISSING = 64, 4, 65535
CONTENT = RECORD - CONTENT_AT
BEFORE_WIDTH, AFTER_WIDTH = RESERVED = range(6, 8), range(12, RECORD)  # the head's bytes that are zero
LITERALS = 64  # the most of a sheet to project
ANSWER_LITERALS = 2 * LITERALS  # the most of an answer sheet, and of one to test a value with: each may add the next one
SHEET_RECORDS, ANSWER_RECORDS = 1 + LITERALS, 1 + ANSWER_LITERALS
LARGEST_SHEET = RECORD * SHEET_RECORDS
SHEET_ROOM, VALUE_ROOM = RECORD * ANSWER_RECORDS, RECORD
NAME, COLUMNS = 16, 8  # a column's name in a list, and the most columns of one
ENTRY = NAME + RECORD
TEXT_BYTES, LEAVES, BRACKETS = 4096, 32, 16  # the most of a filter; brackets that are open at one place
TYPE_AT = 2 * RECORD  # in a summary: two value records, a type byte and a flag byte
FLAG_AT, SUMMARY = TYPE_AT + 1, TYPE_AT + 2
VERDICT_ROOM = 1

INT, LONG, DATE, TIME, TS, TSTZ, TSNS, TSTZNS, STRING, BINARY = TYPES = range(1, 11)
IDENTITY, TRUNCATE, YEAR, MONTH, DAY, HOUR, VOID, UNKNOWN = TRANSFORMS = range(0, 8)
IS_NULL, NOT_NULL, IS_NAN, NOT_NAN = UNARY = range(101, 105)
LT, LE, GT, GE, EQ, NOT_EQ, STARTS, NOT_STARTS = ONE_LITERAL = range(201, 209)
IN, NOT_IN = SETS = range(301, 303)
OPERATORS = [*UNARY, *ONE_LITERAL, *SETS]
HAS_MISSING, NONE_PRESENT = 1, 2  # what a summary's flag is the sum of
SKIP, READ, WHOLE = range(3)

MICROS, NANOS = (TS, TSTZ), (TSNS, TSTZNS)
I32 = range(-(2**31), 2**31)
I64 = range(-(2**63), 2**63)


class Refused(Exception):
    """One of the answers from 3 on."""

    def __init__(self, number):
        super().__init__(number)
        self.number = number


def need(test, number):
    if not test:
        raise Refused(number)


def is_number(column):
    return column <= TSTZNS


def range_of(column):
    return I32 if column in (INT, DATE) else I64


def size(column):
    return {INT: 4, DATE: 4, STRING: None, BINARY: None}.get(column, 8)


def read_literal(column, bs):
    return int.from_bytes(bs, "little", signed=True) if is_number(column) else bs


def literal_bytes(column, literal):
    return literal.to_bytes(size(column), "little", signed=True) if is_number(column) else literal
