"""What the groups of summaries are built from: a leaf, and the summary of a file that it is asked of."""
import random

from model import summary_of

from .leaves import leaf


class Files:
    """The cases of one group. Where a verdict is told it is what the papers say, by hand, and the model has to agree."""

    def __init__(self, cases, number):
        self.cases, self.number, self.rng = cases, number, random.Random(number)

    def ask(self, operator, column, literals, ends, missing=False, told=None):
        """Of a file with these ends, or () for a file without a present value."""
        told = None if told is None else (0, told)
        self.bytes(leaf(operator, column, literals), summary_of(column, ends, missing), told)

    def either(self, operator, column, literals, ends):
        """With a missing value or without one, at random."""
        self.ask(operator, column, literals, ends, self.rng.random() < 0.5)

    def bytes(self, sheet, summary, told=None, lent=None):
        """What is told is the number, after 0 with the verdict."""
        self.cases.summary(self.number, sheet, summary, lent, told)


def windows(values):
    """Every two ends in order."""
    return [(low, high) for low in values for high in values if low <= high]
