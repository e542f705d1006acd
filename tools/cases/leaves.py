"""What the groups build their bytes with: a leaf as a sheet, a literal, a missing value, new bytes put over old ones."""
from model import MISSING, IDENTITY, UNARY, ONE_LITERAL, literal_bytes, record, sheet_of

# The operators that a missing value meets, in numerals, by hand: the model has to agree wherever a case is told by them.
MISSING_MEETS = (101, 206, 208, 302)


def leaf(operator, column, literals=(), transform=IDENTITY, width=0):
    return sheet_of(operator, column, [literal_bytes(column, l) for l in literals], transform, width)


def literals_for(operator, values):
    """As many literals as the operator takes, from a list of values; a set has three, one of them twice."""
    return [] if operator in UNARY else values[:1] if operator in ONE_LITERAL else [*values[:2], values[0]]


def patched(bs, at, new):
    return bs[:at] + new + bs[at + len(new) :]


def number(column, z):
    return literal_bytes(column, z)


def missing_value():
    return record(0, b"", MISSING)
