"""Sheets and values as bytes: read with the refusals 3 and 4, and written as answers and as questions."""
from .codes import (
    RECORD, CONTENT_AT, CONTENT, MISSING, RESERVED, STRING, TYPES, TRUNCATE, TRANSFORMS, UNARY, SETS, OPERATORS,
    need, size, literal_bytes,
)

# ---- reading: 3, then 4


def word(bs, at, n):
    return int.from_bytes(bs[at : at + n], "little")


def read_content(record, column):
    n, fixed = word(record, 2, 2), size(column)
    need(n <= CONTENT if fixed is None else n == fixed, 3)
    need(not any(record[CONTENT_AT + n :]), 3)
    return bytes(record[CONTENT_AT : CONTENT_AT + n])


def check_head(column, transform, width):
    need(column in TYPES and transform in TRANSFORMS, 3)
    need(width == 0 or transform == TRUNCATE, 3)


def read_head(head):
    """Type, transform and width of a head, whatever its next and operator."""
    column, transform, width = head[4], head[5], word(head, 8, 4)
    check_head(column, transform, width)
    need(not any(head[at] for part in RESERVED for at in part), 3)
    return column, transform, width


def read_sheet(sheet, most_records):
    """Operator, type, transform, width and the literals' bytes."""
    need(len(sheet) % RECORD == 0 and 1 <= len(sheet) // RECORD <= most_records, 3)
    records = [sheet[i : i + RECORD] for i in range(0, len(sheet), RECORD)]
    operator = word(records[0], 2, 2)
    need(operator in OPERATORS, 3)
    column, transform, width = read_head(records[0])
    literals, at = [], 0
    while following := word(records[at], 0, 2):
        need(at < following < len(records), 3)
        at = following
        literals.append(read_content(records[at], column))
    need(operator in SETS or len(literals) == (0 if operator in UNARY else 1), 3)
    return operator, column, transform, width, literals


def read_value(value, column):
    """The value's bytes, or None for a missing one."""
    need(len(value) == RECORD and word(value, 0, 2) == 0, 3)
    if word(value, 2, 2) == MISSING:
        need(not any(value[CONTENT_AT:]), 3)
        return None
    return read_content(value, column)


def is_utf8(bs):
    try:
        bs.decode("utf-8", "strict")
    except UnicodeDecodeError:
        return False
    return True


def check_utf8(column, texts):
    need(column != STRING or all(map(is_utf8, texts)), 4)


# ---- writing


def record(following, bs, length=None):
    n = len(bs) if length is None else length
    return (following.to_bytes(2, "little") + n.to_bytes(2, "little") + bs).ljust(RECORD, b"\0")


def value_record(column, value):
    return record(0, b"", MISSING) if value is None else record(0, literal_bytes(column, value))


def head_record(operator, column, transform, width, following):
    head = following.to_bytes(2, "little") + operator.to_bytes(2, "little") + bytes([column, transform, 0, 0])
    return (head + width.to_bytes(4, "little")).ljust(RECORD, b"\0")


def sheet_of(operator, column, contents, transform=0, width=0):
    """A sheet whose chain is 0, 1, 2, .., from its literals' bytes as they come."""
    last = len(contents)
    records = [record(i + 1 if i < last else 0, bs) for i, bs in enumerate(contents, 1)]
    return head_record(operator, column, transform, width, 1 if contents else 0) + b"".join(records)


def answer_sheet(operator, column, literals):
    return sheet_of(operator, column, [literal_bytes(column, l) for l in sorted(set(literals))])
