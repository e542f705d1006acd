"""model: document 01, with document 02's filters, Binaries, summaries and older files, in Python, from their text alone; it shares
nothing with the crates.

`holds`, `project` and `transform` are the routines: bytes in, document 01's number and the result's bytes out (none after any
number but 0). `strict_project_older` is 02's third question. `filter_row` and `filter_project` are those of filters, which write
nothing. `test_summary` is that of files known by their ends, and `pool` gives one summary for two of them. `printed` is program
`weighpick`, from the bytes that it reads to those that it prints. Within, a number is an int and a String or Binary is bytes; a
refusal is raised as `Refused` with its number.

The parts, the lowest first: codes, sheets, transforms, projections, routines, program; of filters: columns, texts, filters; of
files known by their ends: summaries, verdicts, pooling, checks; of older files: filings."""
from .codes import (
    RECORD, CONTENT, MISSING, BEFORE_WIDTH, AFTER_WIDTH, LITERALS, ANSWER_LITERALS, LARGEST_SHEET, SHEET_ROOM,
    VALUE_ROOM, NAME, COLUMNS, ENTRY, TEXT_BYTES, LEAVES, BRACKETS, TYPE_AT, FLAG_AT, SUMMARY, VERDICT_ROOM, INT, LONG,
    DATE, TIME, TS, TSTZ, TSNS, TSTZNS, STRING, BINARY, TYPES, IDENTITY, TRUNCATE, YEAR, MONTH, DAY, HOUR, VOID, UNKNOWN,
    TRANSFORMS, IS_NULL, NOT_NULL, IS_NAN, NOT_NAN, UNARY, LT, LE, GT, GE, EQ, NOT_EQ, STARTS, NOT_STARTS, ONE_LITERAL,
    IN, NOT_IN, SETS, OPERATORS, HAS_MISSING, SKIP, READ, WHOLE, MICROS, NANOS, Refused, is_number, range_of,
    read_literal, literal_bytes,
)
from .checks import check_numbers, check_pools, check_texts
from .columns import WORDS, part_type, entry, values_of
from .filings import LIFTED, check_older, filings_of
from .filters import filter_row, filter_project
from .pooling import pool, pooled_summary
from .program import printed
from .routines import holds, project, strict_project_older, transform
from .sheets import word, read_value, record, value_record, sheet_of, answer_sheet
from .summaries import summary_of
from .texts import SIGNS
from .transforms import PER_SECOND, FIRST_DAY, LAST_DAY, result_type, day_number
from .verdicts import test_summary
