"""Program `weighpick`: the bytes that it prints for those that it reads."""
from .codes import ANSWER_RECORDS, SHEET_ROOM, read_literal
from .routines import project
from .sheets import read_sheet


def literal_text(literal):
    return str(literal) if isinstance(literal, int) else literal.hex() or "-"


def line(question, number, answer):
    words = [question, number]
    if number == 0:
        operator, column, _, _, contents = read_sheet(answer, ANSWER_RECORDS)
        words += [operator, *(literal_text(read_literal(column, bs)) for bs in contents)]
    return " ".join(map(str, words)) + "\n"


def printed(sheet):
    questions = ("inclusive", False), ("strict", True)
    return "".join(line(word, *project(strict, sheet, SHEET_ROOM)) for word, strict in questions).encode()
