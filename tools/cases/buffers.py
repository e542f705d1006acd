"""Group 14: result buffers that are too short, as long as they must be, and longer."""
import itertools

from model import (
    RECORD, CONTENT, LITERALS, SHEET_ROOM, VALUE_ROOM, INT, LONG, TIME, TS, STRING, BINARY, IDENTITY, TRUNCATE, YEAR,
    DAY, VOID, UNKNOWN, IS_NULL, LT, GT, GE, EQ, IN, value_record,
)

from .leaves import leaf
from .values import per_day


def buffers(cases):
    far = 2**63 - 1
    sheets = [
        leaf(LT, INT, [300], TRUNCATE, 10),  # 0
        leaf(IN, TS, [-2 * i * per_day(TS) - 1 for i in range(LITERALS)], DAY),  # 0, the longest
        leaf(IS_NULL, STRING, [], VOID),  # 1
        b"",  # 3
        leaf(IS_NULL, INT) + b"\0",  # 3
        leaf(EQ, STRING, [b"\x80"]),  # 4
        leaf(EQ, TIME, [0], DAY),  # 5
        leaf(GE, TS, [far], YEAR),  # 6, 8
        leaf(IS_NULL, INT, [], UNKNOWN),  # 7
        leaf(GT, INT, [2**31 - 1], TRUNCATE, 0),  # 8
    ]
    lengths = (0, VALUE_ROOM, SHEET_ROOM - 1, SHEET_ROOM, SHEET_ROOM + 1, SHEET_ROOM + 3 * RECORD)
    for sheet, lent in itertools.product(sheets, lengths):
        cases.both(14, sheet, lent)
    values = [
        (INT, TRUNCATE, 10, value_record(INT, -1)),  # 0
        (STRING, IDENTITY, 0, value_record(STRING, b"z" * CONTENT)),  # 0
        (BINARY, TRUNCATE, 1, value_record(BINARY, b"ab")),  # 0
        (LONG, VOID, 0, value_record(LONG, 5)),  # 0
        (INT, IDENTITY, 0, b""),  # 3
        (0, IDENTITY, 0, value_record(INT, 0)),  # 3
        (STRING, UNKNOWN, 0, value_record(STRING, b"\xff")),  # 4
        (TIME, DAY, 0, value_record(TIME, 0)),  # 5
        (TS, YEAR, 0, value_record(TS, far)),  # 6
        (BINARY, UNKNOWN, 0, value_record(BINARY, b"ab")),  # 7
        (INT, TRUNCATE, 0, value_record(INT, 0)),  # 8
    ]
    for value, lent in itertools.product(values, (0, VALUE_ROOM - 1, VALUE_ROOM, VALUE_ROOM + 1, SHEET_ROOM)):
        cases.transform(14, *value, lent)
