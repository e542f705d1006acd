"""Groups 9 and 10: document 01's and the specification's published figures, as the papers have them; the model has to agree."""
from model import (
    INT, LONG, DATE, TS, TSTZ, STRING, BINARY, TRUNCATE, YEAR, MONTH, DAY, HOUR, IS_NULL, LT, LE, GE, EQ, STARTS, IN,
    MICROS, NANOS, PER_SECOND, result_type, value_record, answer_sheet,
)

from .leaves import leaf

# ---- 9: each line of 01's "Moments and lots on either side", with its figures

# Types, transform, width, value: the answer's number and what the value becomes.
MOMENTS = [
    ((INT, LONG), TRUNCATE, 10, -1, 0, -10),
    ((INT, LONG), TRUNCATE, 10, 5, 0, 0),
    (MICROS, DAY, 0, -1, 0, -1),
    (MICROS, DAY, 0, -86400000001, 0, -2),
    (MICROS, DAY, 0, -86400000002, 0, -2),
    (MICROS, DAY, 0, -86401000000, 0, -2),
    (MICROS, HOUR, 0, -1, 0, -1),
    (MICROS, HOUR, 0, 7730941132799999999, 0, 2147483647),
    (MICROS, HOUR, 0, 7730941132800000000, 8, None),
    ((DATE,), MONTH, 0, 31, 0, 1),
    ((DATE,), MONTH, 0, -1, 0, -1),
    (MICROS, YEAR, 0, 8210266876799999999, 0, 260172),
    (MICROS, YEAR, 0, 8210266876800000000, 6, None),
    ((DATE,), YEAR, 0, 95026236, 0, 260172),
    ((DATE,), YEAR, 0, 95026237, 8, None),
    ((INT,), TRUNCATE, 2147483647, 0, 0, 0),
    ((INT,), TRUNCATE, 2147483648, 0, 6, None),
]
# Leaf: operator, type, transform, width, literal; the inclusive answer and the strict one. Of the lines that 01 gives for the
# inclusive question alone, the strict answer is the table's row by hand.
LOTS = [
    (EQ, DATE, YEAR, 0, -1, (0, IN, -1, 0), (1,)),
    (LE, TS, DAY, 0, -1, (0, LE, 0), (0, LT, 0)),
    (LE, TSTZ, DAY, 0, -1, (0, LE, -1), (0, LT, 0)),
    (STARTS, STRING, TRUNCATE, 2, b"\xc3\xa9", (0, STARTS, b"\xc3\xa9"), (0, STARTS, b"\xc3\xa9")),
    (LT, INT, TRUNCATE, 10, -2147483640, (8,), (0, LT, -2147483640)),
    (LT, INT, TRUNCATE, 10, 300, (0, LE, 290), (0, LT, 300)),
]
# The program's limit: a sheet of so many bytes, IsNull of an Int, and its answer. In numerals, as 01 has it: the model's sizes
# are held to it here.
LENGTHS = [(4160, 0), (4161, 3), (4224, 3)]


def told_sheet(answer, column):
    return answer[0], b"" if answer[0] else answer_sheet(answer[1], column, answer[2:])


def told_value(cases, group, column, transform, width, value, number, figure):
    told = number, b"" if number else value_record(result_type(column, transform), figure)
    cases.transform(group, column, transform, width, value_record(column, value), told=told)


def told_questions(cases, group, column, transform, width, value, number, figure):
    """The two questions whose answer needs the transform of the literal itself."""
    for strict, operator in ((False, GE), (True, LT)):
        told = told_sheet((number, operator, figure), result_type(column, transform))
        cases.project(group, strict, leaf(operator, column, [value], transform, width), told=told)


def moments_and_lots(cases):
    for columns, *line in MOMENTS:
        for column in columns:
            told_value(cases, 9, column, *line)
            told_questions(cases, 9, column, *line)
    for operator, column, transform, width, literal, inclusive, strict in LOTS:
        sheet, result = leaf(operator, column, [literal], transform, width), result_type(column, transform)
        cases.project(9, False, sheet, told=told_sheet(inclusive, result))
        cases.project(9, True, sheet, told=told_sheet(strict, result))
    for length, number in LENGTHS:
        for strict in (False, True):
            sheet = leaf(IS_NULL, INT).ljust(length, b"\0")
            cases.project(9, strict, sheet, told=told_sheet((number, IS_NULL), INT))


# ---- 10: the values that the Iceberg table specification publishes, and the moments around 1970

# Moment in seconds and in days: year, month, day, hour.
CLOCK = [
    (1510871468, 17486, (47, 574, 17486, 419686)),  # 2017-11-16T22:31:08
    (0, 0, (0, 0, 0, 0)),
    (-1, -1, (-1, -1, -1, -1)),  # 1969-12-31T23:59:59
]
TRUNCATED = [
    (INT, 10, 1, 0),
    (INT, 10, -1, -10),
    (LONG, 10, 1, 0),
    (LONG, 10, -1, -10),
    (STRING, 3, b"iceberg", b"ice"),
    (BINARY, 3, b"\x01\x02\x03\x04\x05", b"\x01\x02\x03"),
]


def published_values(cases):
    for seconds, days, figures in CLOCK:
        for transform, figure in zip((YEAR, MONTH, DAY, HOUR), figures):
            for column in MICROS + NANOS:
                told_value(cases, 10, column, transform, 0, seconds * PER_SECOND[column], 0, figure)
            if transform != HOUR:
                told_value(cases, 10, DATE, transform, 0, days, 0, figure)
    for column, width, value, figure in TRUNCATED:
        told_value(cases, 10, column, TRUNCATE, width, value, 0, figure)
