"""Sheets as text: composing and listing. Written from the decisions on texts alone (docs/DECISIONS.md).

A text is bytes throughout: Python's own lines, blanks and digits are not the ones meant here.
"""

import re
from collections import namedtuple

from sheet import MOST_ROWS, Refusal, Row, length_with, printed_refusal, read, set_with, write

LONG, FIRST, NUMBER, LARGE, FEW, MANY, ROWS = range(31, 38)
WORDS = {
    LONG: "text too long",
    FIRST: "processors expected",
    NUMBER: "not a number",
    LARGE: "number too large",
    FEW: "number missing",
    MANY: "nothing more expected",
    ROWS: "a 33rd row",
}

MOST_BYTES = 65_535
DIGITS = b"0123456789"
TOP8, TOP32 = 255, 4_294_967_295
# What stands in each place of a line: the word itself, or the most that a number may be there.
KEYWORD = b"processors"
FIRST_LINE = (KEYWORD, TOP8)
ROW_LINE = (TOP8, TOP32, TOP32, TOP32, TOP32)
HEADING = "# processor memory computation period deadline"

Answer = namedtuple("Answer", "number row line column length")
Word = namedtuple("Word", "bytes line column")


def lines_of(text):
    """The lines; a newline at the end of the text ends the last of them, and none follows."""
    lines = text.split(b"\n")
    return lines if lines[-1] else lines[:-1]


def words_of(line, number):
    """The words of the line of that number, without its comment."""
    said = line.split(b"#")[0]
    return [Word(found.group(), number, found.start() + 1) for found in re.finditer(rb"[^ \t\r]+", said)]


def refused_at(number, line, column):
    return Answer(number, 0, line, column, 0)


def refused_word(number, word):
    return refused_at(number, word.line, word.column)


def value(word):
    """The number of a word of digits, or None where it has too many to fit anywhere."""
    digits = word.bytes.lstrip(b"0")
    return int(digits or b"0") if len(digits) <= len(str(TOP32)) else None


def word_fault(word, place):
    """The number of refusal of a word in its place, 0 if none."""
    if place == KEYWORD:
        return 0 if word.bytes == KEYWORD else FIRST
    if word.bytes.strip(DIGITS):
        return NUMBER
    return LARGE if value(word) is None or value(word) > place else 0


def line_fault(words, places):
    """The refusal of a line with words, or None."""
    for word, place in zip(words, places):
        number = word_fault(word, place)
        if number:
            return refused_word(number, word)
    if len(words) < len(places):
        last = words[-1]
        return refused_at(FEW, last.line, last.column + len(last.bytes))
    if len(words) > len(places):
        return refused_word(MANY, words[len(places)])
    return None


def fault(lines, spoken):
    """The first refusal of 32 to 37, or None. `spoken` is the words of each line that has any."""
    if not spoken:
        return refused_at(FIRST, len(lines) + 1, 1)
    for k, words in enumerate(spoken):
        if k > MOST_ROWS:
            return refused_word(ROWS, words[0])
        found = line_fault(words, ROW_LINE if k else FIRST_LINE)
        if found:
            return found
    return None


def compose(text, buffer):
    """An answer; on acceptance the buffer (a bytearray) begins with the sheet that the text says."""
    if len(text) > MOST_BYTES:
        return refused_at(LONG, 1, 1)
    lines = lines_of(text)
    spoken = [words for words in [words_of(line, k + 1) for k, line in enumerate(lines)] if words]
    found = fault(lines, spoken)
    if found:
        return found
    rows = [Row(*map(value, words)) for words in spoken[1:]]
    refusal = write(set_with(value(spoken[0][1]), rows), buffer)
    return Answer(refusal.number, refusal.row, 0, 0, 0 if refusal.number else length_with(len(rows)))


def refusal_line(answer):
    """What is printed for an answer that refuses; nothing for one that accepts."""
    if answer.number in WORDS:
        line = "refused line %d column %d: %s\n" % (answer.line, answer.column, WORDS[answer.number])
        return line.encode()
    return printed_refusal(Refusal(answer.number, answer.row, 0)).encode() if answer.number else b""


def composed(text):
    """What the program compose prints, on standard output and on standard error."""
    buffer = bytearray(length_with(MOST_ROWS))
    answer = compose(text, buffer)
    return bytes(buffer[: answer.length]), refusal_line(answer)


def listed(sheet):
    """What the program list prints: the text of a sheet in its plain layout, or its refusal."""
    refusal, the_set = read(sheet)
    if refusal.number:
        return printed_refusal(refusal).encode()
    lines = ["processors %d" % the_set.N, HEADING]
    lines += ["%d %d %d %d %d" % row for row in the_set.rows[: the_set.n]]
    return "".join([line + "\n" for line in lines]).encode()
