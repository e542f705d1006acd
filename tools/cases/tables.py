"""What the groups of filters are built from: columns by name with the values beside them, and the questions asked of both."""
from model import IDENTITY, entry, part_type, values_of


def head(column, transform=IDENTITY, width=0):
    return column, transform, width


class Table:
    """Columns by name, each a type, a transform and a width as far as they are given."""

    def __init__(self, **columns):
        self.heads = [head(*given) for given in columns.values()]
        self.list = b"".join(entry(name.encode(), *given) for name, given in zip(columns, self.heads))
        self.types = [column for column, _, _ in self.heads]
        self.part_types = [part_type(column, transform) for column, transform, _ in self.heads]

    def row(self, *values):
        return values_of(self.types, values)

    def parts(self, *values):
        return values_of(self.part_types, values)


class Group:
    """The cases of one group. Where `told` is given it is what the papers say, by hand, and the model has to agree."""

    def __init__(self, cases, number):
        self.cases, self.number, self.strict = cases, number, False

    def row(self, table, text, values, told=None):
        self.row_bytes(table.list, text, table.row(*values), told)

    def parts(self, table, text, values, told=(None, None)):
        """Both questions; `told` has the inclusive answer first."""
        self.parts_bytes(table.list, text, table.parts(*values), told)

    def alike(self, table, text, values, told=None):
        """As a row and as partition values, where that makes no difference."""
        self.alike_bytes(table.list, text, table.row(*values), table.parts(*values), told)

    def row_bytes(self, columns, text, values, told=None):
        self.cases.filter_row(self.number, columns, text, values, told)

    def parts_bytes(self, columns, text, values, told=(None, None)):
        for strict, number in zip((False, True), told):
            self.cases.filter_project(self.number, strict, columns, text, values, number)

    def alike_bytes(self, columns, text, row, parts, told=None):
        """The two questions take turns."""
        self.row_bytes(columns, text, row, told)
        self.cases.filter_project(self.number, self.strict, columns, text, parts, told)
        self.strict = not self.strict
