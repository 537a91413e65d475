"""expect_text.py STDIN STDOUT: what the trials of sheets as text must print (make_text_cases.py has the forms)."""

from cases import expect_file, lent_buffer, spelt
from dice import digest
from sheet import big
from text import compose, listed, refusal_line


def line_of_text(room, text):
    buffer = lent_buffer(room)
    answer = compose(text, buffer)
    return "%s %016x %s" % (spelt(answer), digest(buffer), refusal_line(answer).hex())


def line_of_sheet(room, sheet):
    buffer = lent_buffer(room)
    text = listed(sheet)[:room]
    buffer[: len(text)] = text
    return "%d %016x %s" % (len(text), digest(buffer), text.hex())


LINES = {"T": line_of_text, "L": line_of_sheet}


def line_of(kind, data):
    return "%s %s" % (kind, LINES[kind](big(data[:2]), data[2:]))


if __name__ == "__main__":
    expect_file(line_of)
