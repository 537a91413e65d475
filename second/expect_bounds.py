"""expect_bounds.py STDIN STDOUT: what the trials of the bounds must print (make_bounds_cases.py has the forms)."""

from analysis import analyse
from cases import expect_file, spelt
from dice import digest
from make_bounds_cases import FIRST_PLACE
from sheet import big


def line_of(kind, data):
    places = [FIRST_PLACE + i for i in range(big(data[:2]))]
    refusal = analyse(data[2:], places)
    words = [kind, spelt(refusal), "%016x" % digest(places)]
    return " ".join(words + ([spelt(places)] if kind == "B" and places else []))


if __name__ == "__main__":
    expect_file(line_of)
