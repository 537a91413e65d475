"""expect_board.py STDIN STDOUT: what the trials of the board must print (make_board_cases.py has the forms)."""

from cases import expect_file, spelt
from play import Play
from sheet import big


def line_of(kind, data):
    length = big(data[:2])
    play = Play(data[2 : 2 + length])
    play.run(data[2 + length :])
    told = play.told if kind == "Q" else []
    return "%s %s %016x" % (kind, spelt(list(play.refusal) + told), play.digest)


if __name__ == "__main__":
    expect_file(line_of)
