"""make_text_cases.py STDIN [SEED]: the cases of the trials of sheets as text (cases.py has their outer form).

  T  a buffer's length (2 bytes, at most 1,024) and a text. Byte i of the buffer is i modulo 251 before
     the text is composed there. Prints the answer, the digest of all of the buffer, and the line that
     is printed for a refusal, in hexadecimal: nothing where the text is taken, so that the line of the
     case then ends with a space.
  L  a buffer's length (2 bytes, at most 2,048) and a sheet. The text of the sheet, or of its refusal,
     is put at the start of the buffer, which is filled as above; what does not fit is left out. Prints
     where the text ends in the buffer, the digest of all of the buffer, and the text there in
     hexadecimal.
A line begins with the case's kind. An answer is printed as number, row, line, column, length; a digest
as 16 hexadecimal digits; the rest decimal; each after a single space. dice.py has the digest.
"""

from cases import case, make_file
from dice import Dice
from drafts import HEAD_FAULTS, ONE_OF_EACH, ROW_FAULTS, Draft, good_draft, high_rows, set_row_fault
from examples import SHEETS, A
from sheet import MOST_ROWS, length_with
from text import KEYWORD, MOST_BYTES, listed

ROOM_FOR_SHEETS = 1_024
ROOM_FOR_TEXTS = 2_048

dice = Dice(4)
out = []


def put_text(text, room=ROOM_FOR_SHEETS, zeros=0):
    out.append(case("T", room.to_bytes(2, "big") + bytes(text), zeros))


def put_sheet(sheet, room=ROOM_FOR_TEXTS, zeros=0):
    out.append(case("L", room.to_bytes(2, "big") + bytes(sheet), zeros))


# Layouts. What a text says is a list of lines, each a list of words.


def words_of(draft):
    return [[KEYWORD, b"%d" % draft.N]] + [[b"%d" % number for number in row] for row in draft.rows]


def plain(lines):
    return b"".join([b" ".join(words) + b"\n" for words in lines])


def tabbed(lines):
    return b"".join([b"\t".join(words) + b"\r\n" for words in lines])


def blanks(least=0):
    return bytes([dice.one_of(b" \t\r") for _ in range(dice.between(least, 3))])


def line_end():
    comment = b"#" + dice.bytes(dice.below(12)).replace(b"\n", b"#")
    return blanks() + (comment if dice.chance(40) else b"") + b"\n"


def empty_lines():
    return b"".join([line_end() for _ in range(dice.one_of([0, 0, 0, 1, 2]))])


def loose(lines):
    """Any blanks between the words, comments and empty lines; perhaps no last newline."""
    text = b""
    for words in lines:
        text += empty_lines() + blanks() + words[0]
        text += b"".join([blanks(1) + word for word in words[1:]]) + line_end()
    text += empty_lines()
    return text[:-1] if dice.chance(50) else text


def any_layout(lines):
    return dice.one_of([plain, tabbed, loose, loose])(lines)


def put_lines(lines, room=ROOM_FOR_SHEETS):
    put_text(plain(lines), room)
    put_text(dice.one_of([tabbed, loose, loose])(lines), room)


# Texts composed.


def example_texts():
    for sheet in SHEETS.values():
        text, size = listed(sheet), len(sheet)
        for room in (0, 5, size - 1, size, size + 1, ROOM_FOR_SHEETS):
            put_text(text, room)
        put_text(b"# An example\r\n\t" + text.replace(b"\n", b"\r\n")[:-1])
    text = listed(A)
    for k in range(len(text)):
        put_text(text[:k])


def with_line(lines, at, words):
    return lines[:at] + [words] + lines[at + 1 :]


def line_faults(words):
    """The line with each of 33 to 36, at its first, a middle and its last number."""
    first, last = (1 if words[0] == KEYWORD else 0), len(words) - 1
    for k in sorted({first, (first + last) // 2, last}):
        for wrong in (b"4x", b"4294967296"):
            yield words[:k] + [wrong] + words[k + 1 :]
    for k in sorted({1, (1 + last) // 2, last}):
        yield words[:k]
    for extra in ([b"1"], [b"x", b"1"]):
        yield words + extra


def faults_at_places():
    for n in (0, 1, 3, MOST_ROWS):
        lines = words_of(high_rows(n))
        for at in sorted({0, min(n, 1), n // 2, n}):
            for words in line_faults(lines[at]):
                put_lines(with_line(lines, at, words))
        put_lines(with_line(lines, 0, [b"processor", b"8"]))
        put_lines(lines[1:])
    for at in range(1, MOST_ROWS + 1):
        put_text(any_layout(with_line(lines, at, dice.one_of(list(line_faults(lines[at]))))))


def too_many_rows():
    lines = words_of(high_rows(MOST_ROWS))
    row = lines[-1]
    wrong_rows = [row[:1], row + row, [b"x"] + row[1:], row[:4] + [b"4294967296"], [b"processors", b"8"], [b"\0"]]
    for after in [[], [row], [row, row], [row] * 8, [row, [b"x"]], [row, row[:1]]] + [[wrong] for wrong in wrong_rows]:
        put_lines(lines + after)
    put_text(plain(lines) + b"# a 33rd row\n \t\r\n#" + plain([row]))
    put_text(plain(lines)[:-1] + b"#\n" + plain([row])[:-1], 0)
    # Where an earlier line has a fault too, that one is given.
    for at in (0, 1, MOST_ROWS):
        put_lines(with_line(lines, at, lines[at][:1]) + [row], 0)
        put_lines(with_line(lines, at, lines[at] + [b"x"]) + [[b"x"]])
    # What the writer would refuse is not looked at before.
    put_lines(with_line(lines, 1, [b"9"] * 5) + [row])


FIRST_LINES = [
    b"Processors 1", b"PROCESSORS 1", b"processor 1", b"processorss 1", b"processors1", b"xprocessors 1", b"p",
    b"processors: 1", b"processors=1", b"processors,1", b"process ors 1", b"1 processors", b"1", b"0 1 1 4 4",
    b"# comment", b"#processors 1", b"processors#1", b"processors #1", b"processors# 1\n1", b"processors\n1",
    b"processors", b"processors 1#", b"processors 1#1", b"processors 1 #1 1", b"processors\r1", b"processors\t1",
    b"\tprocessors  1 ", b"\r\n\r\nprocessors 1\r", b"processors 1\n1", b"processors 1\nprocessors 1",
    b"processors 1 processors 1", b"processors processors 1", b"processors 1 1", b"processors 1 x",
    b"processors x 1", b"processors\0", b"processors\0 1",
]
NO_WORDS = [
    b"", b"\n", b"\n\n\n", b" ", b" \n", b"\n ", b"\t\r ", b"\r", b"\r\n", b"\r\n\r\n", b"#", b"#\n", b"\n#", b"##",
    b"# a\n# b", b"# a\n# b\n", b"# a\n# b\n\n", b"#processors 1\n#0 1 1 4 4\n", b"# \0\xff", b" \t#\r\n\t# x\n",
]


def first_lines():
    for text in NO_WORDS:
        put_text(text)
        put_text(text + b"\nprocessors 1")
    for line in FIRST_LINES:
        put_text(line + b"\n0 1 1 4 4\n")


WRAPPING = [(1 << bits) + more for bits in (32, 64, 128) for more in (-1, 0, 1, 4)]
NUMBERS = [
    *(b"%d" % number for number in [0, 1, 8, 9, 255, 256, 1_000_000, 1_000_001] + WRAPPING),
    *(b"00", b"007", b"0" * 20 + b"1", b"0" * 300 + b"8", b"0" * 300, b"0" * 10 + b"4294967296", b"9" * 400),
    *(b"+1", b"-1", b"1.0", b"1e3", b"0x1", b"1" * 300 + b"x"),
]
MORE_NUMBERS = [
    *(b"%d" % number for number in [2, 7, 10, 99, 254, 257, 260, 999_999, (1 << 31) - 1, 1 << 31]),
    *(b"%d" % number for number in [5_000_000_000, 9_999_999_999, 10**10, 10**19, 10**20, 10**39, 10**300]),
    *(b"-0", b"1.", b".1", b"1,000", b"1_000", b"1'000", b"1/1", b"1:1", b"/", b":", b"-", b"+", b"1-", b"0b1", b"0o7"),
    *(b"1E3", b"1L", b"a", b"A", b"f", b"inf", b"nan", b"x1", b"1x", b"1x1", b"\xb2", b"\xd9\xa1", b"\xef\xbc\x91"),
]
NUMBER_PLACES = [(0, 1), (1, 0), (1, 1), (1, 2), (1, 3), (1, 4)]  # line, word


def numbers():
    """Each number in each place, and each of more numbers in one place, by turns."""
    lines = words_of(Draft(8, [[7, 1, 1, 1_000_000, 1_000_000]]))
    for turn, (at, k) in enumerate(NUMBER_PLACES):
        for number in NUMBERS + MORE_NUMBERS[turn :: len(NUMBER_PLACES)]:
            put_text(plain(with_line(lines, at, lines[at][:k] + [number] + lines[at][k + 1 :])))


ODD_WORDS = [bytes([byte]) for byte in b"\0\1\7\b\v\f\x0e\x1a\x1b\x1c\x1d\x1e\x1f!\"$'*,;\\~\x7f\x80\x85\xa0\xfe\xff"]
# UTF-8: next line, no-break space, a letter, line separator, em space, ideographic space, byte order mark.
ODD_WORDS += [b"\xc2\x85", b"\xc2\xa0", b"\xc3\xa9", b"\xe2\x80\xa8", b"\xe2\x80\x83", b"\xe3\x80\x80", b"\xef\xbb\xbf"]


def odd_bytes():
    """Every byte between two numbers; the odd ones before a word, as a word, and in comments."""
    for byte in range(256):
        put_text(b"processors 1\n0 1%c1 4 4\n" % byte)
    for odd in ODD_WORDS:
        put_text(odd + b"processors 1\n")
        put_text(b"processors 1\n0 1 1 4 4 %b\n" % odd)
        put_text(b"processors 1 #%b 2\n#%b\n0 1 1 4 4#%b" % (odd, odd, odd))


def writers_refusals():
    for n in (1, 3, MOST_ROWS):
        for r in sorted({0, n // 2, n - 1}):
            for name in ROW_FAULTS:
                draft = high_rows(n)
                set_row_fault(draft, r, name)
                put_text(any_layout(words_of(draft)), dice.one_of([0, ROOM_FOR_SHEETS]))
    for N in (0, 1, 8, 9, 255):
        for n in (0, 1, MOST_ROWS):
            draft = Draft(N, high_rows(n).rows)
            put_text(any_layout(words_of(draft)), dice.one_of([0, ROOM_FOR_SHEETS]))
            draft.rows[-1:] = [[255, 0, 0, 0, 0]]  # COUNT comes before any row
            put_text(any_layout(words_of(draft)))


def rooms():
    for n in (0, 1, 2, 13, 14, 31, MOST_ROWS):
        size = length_with(n)
        for room in sorted({0, 1, 4, 5, size - 1, size, size + 1, 255, 256, 257, ROOM_FOR_SHEETS}):
            put_text(any_layout(words_of(good_draft(dice, n))), room)


# What makes a line wrong; the last is the writer's to refuse, with N or the deadline 0.
SLIPS = [
    lambda words: [b"x"] + words[1:],
    lambda words: words[:1] + [b"99999999999"] + words[2:],
    lambda words: words[:-1] + [b"99999999999x"],
    lambda words: words[:-1],
    lambda words: words + [b"1"],
    lambda words: words[:-1] + [b"0"],
]


def several_faults():
    """Two at once, in one line or in two: the first in order is given."""
    slips = [(at, slip) for at in (0, 1, 3) for slip in SLIPS]
    for k, first in enumerate(slips):
        for second in slips[k + 1 :]:
            lines = words_of(high_rows(3))
            for at, slip in (first, second):
                lines[at] = slip(lines[at])
            put_text(any_layout(lines), dice.one_of([0, ROOM_FOR_SHEETS]))


def put_filled(text, length, room=ROOM_FOR_SHEETS):
    """The text and zero bytes up to that length."""
    put_text(text, room, length - len(text))


def long_texts():
    text = listed(A)
    for length in (MOST_BYTES - 1, MOST_BYTES, MOST_BYTES + 1, MOST_BYTES + 2):
        for begun in (b"", b"x\n", b"#", b"processors ", b"processors 1 ", b"processors 1\n0 1 ", text, text + b"#"):
            put_filled(begun, length)
        put_filled(text + b"#", length, 0)
    # The largest line, column and number of digits.
    put_text(b"\n" * MOST_BYTES)
    put_text(KEYWORD.rjust(MOST_BYTES))
    put_text(b"processors " + b"1".rjust(MOST_BYTES - len(b"processors "), b"0"))
    put_text(text.rjust(MOST_BYTES, b"\n")[:-1] + b"x")
    put_text(text.rjust(MOST_BYTES + 1, b"\n"))


def swap_lines(text):
    lines = text.split(b"\n")
    i, j = dice.below(len(lines)), dice.below(len(lines))
    lines[i], lines[j] = lines[j], lines[i]
    return b"\n".join(lines)


def damaged(text):
    at = dice.below(len(text) + 1)
    byte = bytes([dice.one_of(b"\n\n##  \t\r\v\0\xff0123456789x-")])
    ways = [
        text[:at] + text[at + 1 :],
        text[:at] + byte + text[at:],
        text[:at] + byte + text[at + 1 :],
        text[:at] + text[at + dice.below(9) :],
        swap_lines(text),
    ]
    return dice.one_of(ways)


def damaged_texts():
    for k in range(200):
        text = any_layout(words_of(good_draft(dice, dice.below(4) if k % 12 else dice.between(28, 33))))
        for _ in range(dice.between(1, 3)):
            text = damaged(text)
        put_text(text, dice.one_of([0, 41, ROOM_FOR_SHEETS, ROOM_FOR_SHEETS]))


PIECES = [KEYWORD, b"\n", b"\n", b" ", b" ", b" ", b"\t", b"\r", b"#", b"0", b"1", b"1", b"4", b"4"]
PIECES += [b"08", b"256", b"4294967296", b"\0"]


def pieced_texts():
    for _ in range(120):
        pieces = [dice.one_of(PIECES) for _ in range(dice.between(1, 30))]
        put_text((b"processors 1\n0 1 1" if dice.chance(60) else b"") + b"".join(pieces))


def composed_again():
    for n in list(range(MOST_ROWS + 1)) + [1, 2, 3, 4] * 10:
        put_text(loose(words_of(good_draft(dice, n))), dice.one_of([length_with(n), 700, ROOM_FOR_SHEETS]))


# Sheets listed.


def put_around(sheet):
    """Rooms around the length of the sheet's text."""
    length = len(listed(sheet))
    for room in (0, 1, length - 1, length, length + 1, ROOM_FOR_TEXTS):
        put_sheet(sheet, room)


def listings():
    for sheet in SHEETS.values():
        put_around(sheet)
    for room in range(len(listed(A)) + 2):
        put_sheet(A, room)
    for n in range(MOST_ROWS + 1):
        sheet = good_draft(dice, n).bytes()
        put_sheet(sheet)
        put_sheet(sheet, dice.below(len(listed(sheet))))
    put_around(Draft(8, [[7] + [1_000_000] * 4] * MOST_ROWS).bytes())
    for N in range(1, 9):
        put_sheet(Draft(N, []).bytes())
    # Numbers of every number of digits.
    for k in range(7):
        for number in (10**k, 10 ** (k + 1) - 1, 10**k + 10**k // 7):
            if number <= 1_000_000:
                put_sheet(Draft(8, [[7, number, number, number, number], [7, 0, number, 1_000_000, 1]]).bytes())


def refused_listings():
    for k in range(6):
        put_sheet(A[:k])
    for n in (0, 1, 3, MOST_ROWS):
        for fault in HEAD_FAULTS.values():
            draft = high_rows(n)
            fault(draft)
            put_sheet(draft.bytes())
    for N, n in ((9, 0), (255, 1), (8, 33), (0, 33), (8, 255)):
        put_sheet(Draft(N, [[0, 1, 1, 4, 4]] * n).bytes())
    for n in (1, 3, MOST_ROWS):
        for r in sorted({0, n // 2, n - 1}):
            draft = high_rows(n)
            draft.lengths[r] = 16
            put_sheet(draft.bytes())
            for name in ONE_OF_EACH if n > 1 else ROW_FAULTS:
                draft = high_rows(n)
                set_row_fault(draft, r, name)
                put_sheet(draft.bytes())
    # The longest line of a refusal, in any room.
    draft = high_rows(MOST_ROWS)
    set_row_fault(draft, MOST_ROWS - 1, "phases none")
    for room in range(len(listed(draft.bytes())) + 2):
        put_sheet(draft.bytes(), room)
    for zeros in (1, 18, 65_495, 65_536):
        put_sheet(A, zeros=zeros)


def damaged_sheets():
    for _ in range(60):
        data = bytearray(good_draft(dice, dice.below(5)).bytes())
        data[dice.below(len(data))] ^= 1 << dice.below(8)
        put_sheet(data, dice.one_of([dice.below(90), ROOM_FOR_TEXTS]))


OF_TEXTS = [example_texts, faults_at_places, too_many_rows, first_lines, numbers, odd_bytes, writers_refusals, rooms]
OF_TEXTS += [several_faults, long_texts, damaged_texts, pieced_texts, composed_again]
OF_SHEETS = [listings, refused_listings, damaged_sheets]


def make():
    for put_cases in OF_TEXTS + OF_SHEETS:
        put_cases()
    return b"".join(out)


if __name__ == "__main__":
    make_file(make, dice)
