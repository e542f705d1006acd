"""The verdict on a file known by its ends, and the routine that writes it. For numbers it is 02's sentence, over the values
themselves; for Strings and Binaries 02's table, a line each."""
from .codes import (
    ANSWER_RECORDS, VERDICT_ROOM, IS_NULL, NOT_NULL, IS_NAN, NOT_NAN, LT, LE, GT, GE, EQ, NOT_EQ, STARTS, NOT_STARTS, IN,
    NOT_IN, SKIP, READ, WHOLE, Refused, need, is_number, read_literal,
)
from .routines import meets
from .sheets import read_sheet, check_utf8
from .summaries import read_summary, ordered_ends

FEW = 512  # so many values are gone through one by one

# ---- numbers


def all_between(low, high, literals):
    return range(low, high + 1)


def some_between(low, high, literals):
    """For ends far apart, values that stand for all: each literal, and the first of those up to the next, which answer alike."""
    return [v for v in (low, *literals, *(l + 1 for l in literals)) if low <= v <= high]


def verdict_of(answers):
    """Skip exactly if no value meets the predicate, whole exactly if all do, read otherwise; of no value at all, skip."""
    return SKIP if not any(answers) else WHOLE if all(answers) else READ


def number_verdict(between, operator, column, literals, ends, missing):
    """By the values that `between` gives of a file, and the missing one where flagged."""
    values = [*between(*ends, literals)] if ends else []
    return verdict_of([meets(operator, column, literals, v) for v in values + [None] * missing])


# ---- Strings and Binaries: when present values rule out a match, by the lowest, the highest and the literals


def none_within(low, high, *literals):
    return all(l < low or high < l for l in literals)


def one_excluded(low, high, *literals):
    return any(low == l and high == l for l in literals)


RULED_OUT = {
    LT: lambda low, high, l: not low < l,
    LE: lambda low, high, l: low > l,
    GT: lambda low, high, l: not high > l,
    GE: lambda low, high, l: high < l,
    EQ: none_within,
    IN: none_within,
    NOT_EQ: one_excluded,
    NOT_IN: one_excluded,
    STARTS: lambda low, high, l: high < l or low > l and not low.startswith(l),
    NOT_STARTS: lambda low, high, l: low.startswith(l) and high.startswith(l),
    IS_NULL: lambda low, high: True,
    IS_NAN: lambda low, high: True,
    NOT_NULL: lambda low, high: False,
    NOT_NAN: lambda low, high: False,
}


def text_verdict(operator, column, literals, ends, missing):
    """All are ruled out where none is present. Whole is not given."""
    ruled_out = not ends or RULED_OUT[operator](*ends, *literals)
    return SKIP if ruled_out and not (missing and meets(operator, column, literals, None)) else READ


# ---- the routine


def verdict(operator, column, literals, ends, missing):
    if not is_number(column):
        return text_verdict(operator, column, literals, ends, missing)
    few = not ends or ends[1] - ends[0] < FEW
    return number_verdict(all_between if few else some_between, operator, column, literals, ends, missing)


def test_summary(sheet, summary, room):
    if room < VERDICT_ROOM:
        return 2, b""
    try:
        operator, column, _, _, contents = read_sheet(sheet, ANSWER_RECORDS)
        file = read_summary(summary)
        check_utf8(column, contents)
        check_utf8(file.type, file.ends)
        need(file.type == column, 11)
        literals, ends = [read_literal(column, bs) for bs in contents], ordered_ends(file)
    except Refused as refused:
        return refused.number, b""
    return 0, bytes([verdict(operator, column, literals, ends, file.missing)])
