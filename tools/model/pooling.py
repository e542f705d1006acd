"""One summary for two files: whose ends it has, its flag, and the routine that hands them back."""
from .codes import RECORD, TYPE_AT, FLAG_AT, Refused, need
from .sheets import check_utf8
from .summaries import read_summary, ordered_ends, flag_of

FIRST, SECOND = range(2)


def read_two(first, second):
    """The ends of each, and whether either has a missing value; 3 of either, then 4 of either, 11 of either, 12."""
    files = [read_summary(bs) for bs in (first, second)]
    for file in files:
        check_utf8(file.type, file.ends)
    ends = [ordered_ends(file) for file in files]
    need(files[FIRST].type == files[SECOND].type, 12)
    return ends, any(file.missing for file in files)


def pooled(ends, missing):
    """Whose the lower of the lowest ends is, and whose the higher of the highest, among files with a present value: `min` and
    `max` give the first of equal ones. Where no file has one, both are the first's."""
    there = [whose for whose in (FIRST, SECOND) if ends[whose]]
    lowest = min(there, key=lambda whose: ends[whose][0], default=FIRST)
    highest = max(there, key=lambda whose: ends[whose][1], default=FIRST)
    return lowest, highest, flag_of(there, missing)


def pool(first, second):
    """The result: whose lowest, whose highest and the flag, a byte each, and the two ends' records."""
    try:
        lowest, highest, flag = pooled(*read_two(first, second))
    except Refused as refused:
        return refused.number, b""
    two = first, second
    return 0, bytes([lowest, highest, flag]) + two[lowest][:RECORD] + two[highest][RECORD:TYPE_AT]


def pooled_summary(first, second):
    """The pool as a summary, of two that are not refused."""
    number, result = pool(first, second)
    assert number == 0, (first, second, number)
    flag, ends = result[2:3], result[3:]
    return ends + first[TYPE_AT:FLAG_AT] + flag
