"""Holds sheets as text against worked examples: round trips, other layouts, and a refusal of each kind."""

import examples
from checks import finish, same
from text import compose, composed, listed, refusal_line

TEXT_A = b"""processors 2
# processor memory computation period deadline
0 1 1 4 4
1 2 3 12 12
"""

# Sheet A in other layouts: all that a text may hold beside its words.
TEXTS_OF_A = [
    TEXT_A,
    TEXT_A[:-1],
    TEXT_A.replace(b"\n", b"\r\n"),
    b"\n \t\r\n# \xff\0#\x85\n\tprocessors\t 002# two\n\n0 1 1 4 4#\r1 2 3\n  1\t2 3 12 0000000000000012 #",
]

# text, what is printed
REFUSED_TEXTS = [
    (b"", "refused line 1 column 1: processors expected"),
    (b"\n", "refused line 2 column 1: processors expected"),
    (b"# no word", "refused line 2 column 1: processors expected"),
    (b"# no word\n", "refused line 2 column 1: processors expected"),
    (b" processor 1\n", "refused line 1 column 2: processors expected"),
    (b"processors\v1\n", "refused line 1 column 1: processors expected"),
    (b"processors one\n", "refused line 1 column 12: not a number"),
    (b"processors 256\n", "refused line 1 column 12: number too large"),
    (b"processors", "refused line 1 column 11: number missing"),
    (b"processors  # 1\n1\n", "refused line 1 column 11: number missing"),
    (b"processors 1 1\n", "refused line 1 column 14: nothing more expected"),
    (b"processors 1\n\n0 1 1 4 -4\n", "refused line 3 column 9: not a number"),
    (b"processors 1\n256 1 1 4 x\n", "refused line 2 column 1: number too large"),
    (b"processors 1\n0 1 4294967296x 4 4\n", "refused line 2 column 5: not a number"),
    (b"processors 1\n0 1 4294967296 4 4\n", "refused line 2 column 5: number too large"),
    (b"processors 1\n0\t1\t1\t4 \n", "refused line 2 column 8: number missing"),
    (b"processors 1\n0 1 1 4 4 # 5\n0 1 1 4 4 5\n", "refused line 3 column 11: nothing more expected"),
    (b"processors 1" + b"\n0 1 1 4 4" * 32 + b"\n\n x", "refused line 35 column 2: a 33rd row"),
    (b"#" * 65_536, "refused line 1 column 1: text too long"),
    (b"processors 0\n1 1 1 4 4\n", "refused 4 0 0"),
    (b"processors 2\n1 1 1 4 4\n0 1 1 4 4\n", "refused 6 1 0"),
    (b"processors 1\n0 1 1 4294967295 4\n", "refused 7 0 0"),
]

# A buffer's length; the answer for TEXT_A, what is printed for it, and what the buffer then begins with.
ROOMS = [
    (0, (12, 0, 0, 0, 0), b"refused 12 0 0\n", b""),
    (40, (12, 0, 0, 0, 0), b"refused 12 0 0\n", b""),
    (41, (0, 0, 0, 0, 41), b"", examples.A),
    (44, (0, 0, 0, 0, 41), b"", examples.A),
]

same("listed a", listed(examples.A), TEXT_A)
same("listed cut", listed(examples.A[:-1]), b"refused 3 0 0\n")
for text in TEXTS_OF_A:
    same("composed a", composed(text), (examples.A, b""))
for name, sheet in examples.SHEETS.items():
    same("composed " + name, composed(listed(sheet)), (sheet, b""))
    same("listed " + name, listed(composed(b"#\n" + listed(sheet))[0]), listed(sheet))
for text, line in REFUSED_TEXTS:
    same("refused %r" % text[-20:], composed(text), (b"", line.encode() + b"\n"))
for room, wanted, line, written in ROOMS:
    buffer = bytearray(b"\7" * room)
    answer = compose(TEXT_A, buffer)
    same("answer with room %d" % room, answer, wanted)
    same("line with room %d" % room, refusal_line(answer), line)
    same("buffer with room %d" % room, bytes(buffer), written + b"\7" * (room - len(written)))

finish("texts")
