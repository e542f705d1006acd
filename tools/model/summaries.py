"""Summaries of files: the ends of the present values, and whether a missing one occurs; read with the refusals 3 and 11, and
written."""
import collections

from .codes import RECORD, TYPE_AT, FLAG_AT, SUMMARY, TYPES, HAS_MISSING, NONE_PRESENT, need, read_literal
from .sheets import read_value, value_record

File = collections.namedtuple("File", "type ends missing")  # the ends' bytes, lowest first; () where no value is present


def read_summary(bs):
    """The ends are read by the summary's own type."""
    need(len(bs) == SUMMARY, 3)
    column, flag = bs[TYPE_AT], bs[FLAG_AT]
    need(column in TYPES and flag <= HAS_MISSING + NONE_PRESENT, 3)
    lowest, highest = read_value(bs[:RECORD], column), read_value(bs[RECORD:TYPE_AT], column)
    marked = lowest is None, highest is None
    need(marked == (True, True) if flag & NONE_PRESENT else marked == (False, False), 3)
    return File(column, () if flag & NONE_PRESENT else (lowest, highest), bool(flag & HAS_MISSING))


def ordered_ends(file):
    """Their values; 11 where the lowest is above the highest."""
    ends = [read_literal(file.type, bs) for bs in file.ends]
    need(ends == sorted(ends), 11)
    return ends


# ---- writing


def flag_of(ends, missing):
    return (HAS_MISSING if missing else 0) + (0 if ends else NONE_PRESENT)


def summary_of(column, ends, missing):
    """Of two ends, or of none."""
    records = [value_record(column, end) for end in ends or (None, None)]
    return b"".join(records) + bytes([column, flag_of(ends, missing)])
