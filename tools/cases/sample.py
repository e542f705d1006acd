"""Groups 16 and 17: the sample of the crate's answers, taken over from a file of cases."""
import sys

from model import RECORD

from .case import STRICT_PROJECT, TRANSFORM
from .files import read_cases

SAMPLED = (16, 17)


def replay(cases, path):
    """The model has to agree with each."""
    sample = [case for case in read_cases(path) if case.group in SAMPLED]
    check_records(sample, path)
    for case in sample:
        asked, told = case.inputs[0], (case.number, case.result)
        if case.routine == TRANSFORM:
            cases.transform(case.group, case.column, case.transform, case.width, asked, case.lent, told)
        else:
            cases.project(case.group, case.routine == STRICT_PROJECT, asked, case.lent, told)


def check_records(sample, path):
    """Each value of the sample is one record; where that has another size than the model's, the crate has to be asked anew."""
    others = {len(case.inputs[0]) for case in sample if case.routine == TRANSFORM} - {RECORD}
    if others:
        sys.exit(
            f"make-cases: the sample in {path} has records of {min(others)} bytes, and the model's have {RECORD}: "
            "write it anew by `compare/run --sample FILE`, then run `make-cases FILE`"
        )
