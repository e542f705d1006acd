"""What the groups of pooled summaries are built from: two files of one type or two summaries as bytes, and values in order."""
import random

from model import CONTENT, INT, LONG, TSTZNS, STRING, BINARY, range_of, summary_of


class Pools:
    """The cases of one group. What is told is what the papers say, by hand, and the model has to agree."""

    def __init__(self, cases, number):
        self.cases, self.number, self.rng = cases, number, random.Random(number)

    def ask(self, column, one, other, told):
        """Of two files: each has its ends, or (), and whether a missing value occurs. What is told is whose lowest end, whose
        highest, 0 for the first file's and 1 for the second's, and the flag."""
        self.bytes(summary_of(column, *one), summary_of(column, *other), (0, *told))

    def bytes(self, first, second, told=None):
        """What is told is the number, after 0 with these three."""
        self.cases.pool(self.number, first, second, told)

    def beside(self, summary, other, told):
        """Either one as the first."""
        self.bytes(summary, other, told)
        self.bytes(other, summary, told)


# Five values of a type, ascending: numbers by sign and size; texts by byte, the shorter beginning first. More scales where bytes
# carry over or a narrower number would not tell two apart.
SCALES = {column: [[range_of(column)[0], -1, 0, 1, range_of(column)[-1]]] for column in range(INT, STRING)}
SCALES[INT] += [[-65536, -256, 255, 256, 65536]]
SCALES[LONG] += [[-(2**32), -(2**31) - 1, -(2**31), 2**31 - 1, 2**31]]
SCALES[TSTZNS] += [[-(2**63), -(2**63) + 1, 2**32 + 5, 2**63 - 2, 2**63 - 1]]
WORDS = [b"", b"a", b"ab", b"abc", b"b"]
ZEROS = [b"a", b"a\0", b"a\0\0", b"a\x01", b"aa"]
LOTS = [b"l" * (CONTENT - 2), b"l" * (CONTENT - 1), b"l" * (CONTENT - 1) + b"\0", b"l" * CONTENT, b"l" * (CONTENT - 1) + b"m"]
POINTS = [b"z", *(s.encode() for s in ("é", "éa", "€", "\U0001F600"))]
OCTETS = [b"", b"\0", b"\x7f", b"\x80", b"\xff"]
HIGH = [b"\x7f\xff", b"\x80", b"\x80\0", b"\xfe\xff", b"\xff"]
SCALES |= {STRING: [WORDS, ZEROS, LOTS, POINTS], BINARY: [WORDS, ZEROS, OCTETS, HIGH]}
