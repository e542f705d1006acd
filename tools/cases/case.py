"""A case, and the list to which each group adds its own, answered by the model."""
import collections

import model
from model import SHEET_ROOM, VALUE_ROOM, VERDICT_ROOM

HOLDS, PROJECT, STRICT_PROJECT, TRANSFORM, TEXT, PROGRAM = range(6)
FILTER_ROW, FILTER_PROJECT, FILTER_STRICT_PROJECT, TEST_SUMMARY, POOL, STRICT_PROJECT_OLDER = range(6, 12)
Case = collections.namedtuple("Case", "group routine number column transform width inputs result lent")


class Cases:
    """The cases so far. Where no length of the result buffer is given, it is the least that will do, or a little more."""

    def __init__(self):
        self.all = []

    def lent(self, least):
        return least + (0, 1, 44)[len(self.all) % 3]

    def holds(self, group, sheet, value, told=None):
        number = model.holds(sheet, value)
        assert told in (None, number), (group, sheet, value, told)
        self.all.append(Case(group, HOLDS, number, 0, 0, 0, [sheet, value], b"", 0))

    def project(self, group, strict, sheet, lent=None, told=None):
        lent = self.lent(SHEET_ROOM) if lent is None else lent
        number, result = model.project(strict, sheet, lent)
        assert told in (None, (number, result)), (group, sheet, told)
        self.all.append(Case(group, STRICT_PROJECT if strict else PROJECT, number, 0, 0, 0, [sheet], result, lent))

    def both(self, group, sheet, lent=None):
        for strict in (False, True):
            self.project(group, strict, sheet, lent)

    def older(self, group, sheet, lent=None, told=None):
        lent = self.lent(SHEET_ROOM) if lent is None else lent
        number, result = model.strict_project_older(sheet, lent)
        assert told in (None, (number, result)), (group, sheet, told)
        self.all.append(Case(group, STRICT_PROJECT_OLDER, number, 0, 0, 0, [sheet], result, lent))

    def transform(self, group, column, transform, width, value, lent=None, told=None):
        lent = self.lent(VALUE_ROOM) if lent is None else lent
        number, result = model.transform(column, transform, width, value, lent)
        assert told in (None, (number, result)), (group, column, transform, width, value, told)
        self.all.append(Case(group, TRANSFORM, number, column, transform, width, [value], result, lent))

    def program(self, group, sheet, told=None):
        """Its number is that of the first line."""
        printed = model.printed(sheet)
        assert told in (None, printed), (group, sheet, told)
        self.all.append(Case(group, PROGRAM, int(printed.split()[1]), 0, 0, 0, [sheet], printed, 0))

    def filter_row(self, group, columns, text, values, told=None):
        self.filtered(group, FILTER_ROW, model.filter_row(columns, text, values), [columns, text, values], told)

    def filter_project(self, group, strict, columns, text, values, told=None):
        routine = FILTER_STRICT_PROJECT if strict else FILTER_PROJECT
        self.filtered(group, routine, model.filter_project(strict, columns, text, values), [columns, text, values], told)

    def filtered(self, group, routine, number, inputs, told):
        assert told in (None, number), (group, routine, number, inputs, told)
        self.all.append(Case(group, routine, number, 0, 0, 0, inputs, b"", 0))

    def summary(self, group, sheet, summary, lent=None, told=None):
        """`told` is the number and the verdict."""
        lent = self.lent(VERDICT_ROOM) if lent is None else lent
        number, result = model.test_summary(sheet, summary, lent)
        assert told in (None, (number, *result)), (group, sheet, summary, told)
        self.all.append(Case(group, TEST_SUMMARY, number, 0, 0, 0, [sheet, summary], result, lent))

    def pool(self, group, first, second, told=None):
        """`told` is the number, after 0 with whose lowest end, whose highest and the flag."""
        number, result = model.pool(first, second)
        assert told in (None, (number, *result[:3])), (group, first, second, told)
        self.all.append(Case(group, POOL, number, 0, 0, 0, [first, second], result, 0))
