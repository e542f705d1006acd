"""Column lists, and the values that stand beside them: read with the refusals 3 and 4, and written."""
import collections
import re

from .codes import RECORD, NAME, COLUMNS, ENTRY, IDENTITY, Refused, need, read_literal
from .sheets import word, read_head, read_value, check_utf8, head_record, value_record
from .transforms import result_type

Column = collections.namedtuple("Column", "name type transform width")
WORDS = AND, OR, NOT, STARTS_WITH = b"and", b"or", b"not", b"startswith"  # no column has such a name


def read_column(entry):
    name, head = re.fullmatch(rb"([a-z]+)\0*", entry[:NAME]), entry[NAME:]
    need(name and name[1] not in WORDS, 3)
    need(word(head, 0, 2) == 0 and word(head, 2, 2) == 0, 3)
    return Column(name[1], *read_head(head))


def read_columns(bs):
    need(len(bs) % ENTRY == 0 and 1 <= len(bs) // ENTRY <= COLUMNS, 3)
    columns = [read_column(bs[at : at + ENTRY]) for at in range(0, len(bs), ENTRY)]
    need(len({column.name for column in columns}) == len(columns), 3)
    return columns


def part_type(column, transform):
    """The type of a column's partition values: "of the result type, else the column's"."""
    try:
        return result_type(column, transform)
    except Refused:
        return column


def read_values(types, bs):
    """A value for each type, None for a missing one: 3 of any comes before 4 of any."""
    need(len(bs) == RECORD * len(types), 3)
    contents = [read_value(bs[RECORD * i : RECORD * (i + 1)], column) for i, column in enumerate(types)]
    for column, content in zip(types, contents):
        check_utf8(column, [] if content is None else [content])
    return [None if content is None else read_literal(column, content) for column, content in zip(types, contents)]


# ---- writing


def entry(name, column, transform=IDENTITY, width=0):
    return name.ljust(NAME, b"\0") + head_record(0, column, transform, width, 0)


def values_of(types, values):
    return b"".join(map(value_record, types, values))
