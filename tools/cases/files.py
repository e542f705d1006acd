"""The files of cases: stdin, whose bytes tools/make-cases describes, and stdout, the lines that the program prints."""
import itertools
import os
import struct

from .case import TEXT, Case

GROUPS = {
    1: "every operator and type",
    2: "one byte damaged",
    3: "sizes",
    4: "chains",
    5: "UTF-8",
    6: "lengths and marks",
    7: "head fields",
    8: "every byte",
    9: "moments and lots",
    10: "the specification's published values",
    11: "every operator, type and transform",
    12: "sets",
    13: "transforms",
    14: "buffers",
    15: "refusals in order",
    16: "the crate's answers",
    17: "where the specification decides",
    18: "program `weighpick`",
    19: "filters: document 02's example",
    20: "filters: column lists",
    21: "filters: values",
    22: "filters: words and signs",
    23: "filters: literals",
    24: "filters: every byte",
    25: "filters: precedence",
    26: "filters: not",
    27: "filters: sizes",
    28: "filters: order of the answers",
    29: "filters: every operator, type and transform",
    30: "filters: at random",
    31: "filters: one byte damaged",
    32: "lots kept as Binary",
    33: "summaries: every operator, kind and flag",
    34: "summaries: around the literals",
    35: "summaries: sets",
    36: "summaries: texts",
    37: "summaries: refusals in order",
    38: "summaries: one byte damaged",
    39: "summaries: at random",
    40: "pooled summaries: ends and flags",
    41: "pooled summaries: refusals in order",
    42: "pooled summaries: one byte damaged",
    43: "pooled summaries: at random",
    44: "missing values",
    45: "older files",
}
HEADER, INPUTS = struct.Struct("<BBBBBxIHHHHH"), 3


def read_cases(path):
    """The cases of a file, texts left out."""
    with open(path, "rb") as file:
        while header := file.read(HEADER.size):
            *asked, first, second, third, result, lent = HEADER.unpack(header)
            inputs = [file.read(length) for length in (first, second, third)]
            case = Case(*asked, inputs, file.read(result), lent)
            if case.routine != TEXT:
                yield case


def write_case(out, case):
    *asked, inputs, result, lent = case
    parts = [*inputs, *[b""] * (INPUTS - len(inputs)), result]
    out.write(HEADER.pack(*asked, *map(len, parts), lent) + b"".join(parts))


def write_files(folder, cases):
    """The cases in the order of group and answer, after those of each a text, and the program's lines."""
    key = lambda case: (case.group, case.number)
    stdin, stdout = os.path.join(folder, "stdin"), os.path.join(folder, "stdout")
    with open(stdin, "wb") as out, open(stdout, "w", encoding="utf-8") as lines:
        for (group, answer), some in itertools.groupby(sorted(cases, key=key), key):
            some = list(some)
            text = f"{GROUPS[group]}, answer {answer}: "
            for case in some:
                write_case(out, case)
            write_case(out, Case(group, TEXT, 0, 0, 0, 0, [text.encode()], b"", 0))
            lines.write(f"{text}{len(some)} right, 0 wrong\n")
