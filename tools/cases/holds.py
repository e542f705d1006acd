"""Groups 1 to 8: the holds-test."""
import random
import struct

from model import (
    RECORD, CONTENT, MISSING, LITERALS, ANSWER_LITERALS, INT, LONG, STRING, BINARY, TYPES, UNARY, ONE_LITERAL,
    OPERATORS, record, sheet_of,
)

from .leaves import patched, number, missing_value
from .values import NO_RECORD, STRINGS, BROKEN, samples


def holds_tests():
    rng = random.Random(1)
    # 1: every operator and type, well-formed
    for column in TYPES:
        values = samples(column)
        for op in OPERATORS:
            for _ in range(4):
                count = 0 if op in UNARY else 1 if op in ONE_LITERAL else rng.randrange(4)
                sheet = sheet_of(op, column, [rng.choice(values) for _ in range(count)])
                yield 1, sheet, record(0, rng.choice(values))
            yield 1, sheet_of(op, column, [values[3]] * (0 if op in UNARY else 1)), record(0, values[3])
            yield 1, sheet_of(op, column, [values[3]] * (0 if op in UNARY else 1)), missing_value()
    # 2: each byte of a sheet and of a value damaged
    for column, bs in ((INT, number(INT, -2)), (LONG, number(LONG, 300)), (STRING, "é".encode()), (BINARY, b"\x80\xff")):
        sheet, value = sheet_of(301, column, [bs, bs], 1, 10), record(0, bs)
        for i in range(len(sheet)):
            yield 2, patched(sheet, i, bytes([sheet[i] ^ rng.choice((1, 2, 128))])), value
        for i in range(len(value)):
            yield 2, sheet, patched(value, i, bytes([value[i] ^ rng.choice((1, 128))]))
    # 3: sizes: nothing, one byte short or over, the most records of either kind of sheet and one more
    one = number(LONG, 7)
    around = [*range(RECORD - 2, RECORD + 2), *range(2 * RECORD - 2, 2 * RECORD + 2), 3 * RECORD - 1, 3 * RECORD]
    for n in [*range(4), *around]:
        yield 3, (sheet_of(101, LONG, []) + bytes(2 * RECORD))[:n], record(0, one)
    for count in (LITERALS - 1, LITERALS, LITERALS + 1, ANSWER_LITERALS - 1, ANSWER_LITERALS):
        full = sheet_of(302, LONG, [number(LONG, 3 * i - 200) for i in range(count)])
        for sheet in (full, full[:-1], full + b"\0"):
            yield 3, sheet, record(0, one)
        yield 3, full, record(0, number(LONG, 3 * (count - 1) - 200))
    yield 3, sheet_of(301, LONG, [one] * ANSWER_LITERALS) + bytes(RECORD), record(0, one)
    for n in NO_RECORD:
        yield 3, sheet_of(101, LONG, []), (record(0, one) + bytes(RECORD))[:n]
    # 4: the chain: back, to itself, past the end, over records that are ignored
    base = sheet_of(301, INT, [number(INT, z) for z in (1, 2, 3)])
    for at in range(4):
        for following in (0, 1, 2, 3, 4, 5, 255, 256, 65535):
            yield 4, patched(base, RECORD * at, struct.pack("<H", following)), record(0, number(INT, 3))
    for at in (1, 2):
        skipped = patched(patched(base, RECORD * (at - 1), struct.pack("<H", at + 1)), RECORD * at, b"\xff" * RECORD)
        for z in (1, 2, 3, 4):
            yield 4, skipped, record(0, number(INT, z))
    # 5: UTF-8 in literals and values, and 3 before 4
    for bs in BROKEN + STRINGS:
        for column in (STRING, BINARY):
            yield 5, sheet_of(205, column, [bs]), record(0, b"a")
            yield 5, sheet_of(205, column, [b"a"]), record(0, bs)
            yield 5, sheet_of(207, column, [bs]), record(0, bs + b"a" if len(bs) < CONTENT else bs)
        yield 5, sheet_of(301, STRING, [b"a", bs, b"b"]), record(0, b"b")
        yield 5, sheet_of(205, STRING, [bs]), record(1, bs)
        yield 5, sheet_of(205, STRING, [bs]) + b"\0", record(0, bs)
    # 6: lengths and marks
    for column in TYPES:
        bs = samples(column)[4]
        for n in (0, 3, 4, 5, 7, 8, 9, CONTENT - 1, CONTENT, CONTENT + 1, 255, MISSING - 1, MISSING):
            zero = record(0, b"", n)
            yield 6, sheet_of(205, column, [bs])[:RECORD] + zero, record(0, bs)
            yield 6, sheet_of(205, column, [bs]), zero
    # 7: head fields
    for op in (0, 100, 105, 200, 209, 300, 303, 65535):
        yield 7, sheet_of(op, INT, []), record(0, number(INT, 0))
    for column in (0, 11, 255):
        yield 7, sheet_of(101, column, []), record(0, number(INT, 0))
    for transform in range(0, 10):
        for width in (0, 1, 2**31, 2**32 - 1):
            yield 7, sheet_of(101, INT, [], transform, width), missing_value()
    for op in [*UNARY, *ONE_LITERAL]:
        for count in (0, 1, 2):
            yield 7, sheet_of(op, INT, [number(INT, 5)] * count), record(0, number(INT, 5))
    # 8: every byte, where one byte decides
    for b in range(256):
        yield 8, bytes([b]), missing_value()
        yield 8, sheet_of(101, b, []), missing_value()
        yield 8, sheet_of(101, INT, [], b), missing_value()
        yield 8, sheet_of(205, STRING, [bytes([b])]), record(0, b"a")
        yield 8, sheet_of(201, BINARY, [b"a"]), record(0, bytes([b]))
