"""Holds the second program against every worked example of the paper."""

import examples
from analysis import analyse, least, printed, up
from board import release, start, tick
from checks import finish, same
from dice import Dice
from sheet import ACCEPTED, BUSY, LATE, Refusal, read, show, write

SHEET_A = bytes.fromhex(
    "0100290202"
    "1100" "00000001" "00000001" "00000004" "00000004"
    "1101" "00000002" "00000003" "0000000C" "0000000C"
)

# name, refusal, bounds
BOUNDS = [
    ("a", ACCEPTED, [2, 6]),
    ("b", ACCEPTED, [4, 8, 8]),
    ("c", ACCEPTED, [4, 6, 7]),
    ("c6", Refusal(LATE, 2, 1), []),
    ("j", ACCEPTED, [5, 5, 7]),
    ("e1", Refusal(BUSY, 0, 0), []),
    ("e2", ACCEPTED, [4]),
    ("e3", Refusal(LATE, 0, 0), []),
    ("empty", ACCEPTED, []),
]


def run(sheet, releases, end):
    """The state after `end` ticks, each (clock, row) released at its clock; all must be accepted."""
    refusal, state = start(sheet)
    same("start", refusal, ACCEPTED)
    for t in range(end):
        for clock, row in releases:
            if clock == t:
                refusal, state = release(state, row)
                same("release", refusal, ACCEPTED)
        answer, state = tick(state)
        same("tick", answer.refusal, ACCEPTED)
    return state


same("sheet A", examples.A, SHEET_A)
for name, sheet in examples.SHEETS.items():
    refusal, the_set = read(sheet)
    same("read " + name, refusal, ACCEPTED)
    buffer = bytearray(len(sheet) + 3)
    same("write " + name, write(the_set, buffer), ACCEPTED)
    same("written " + name, bytes(buffer), sheet + bytes(3))
    for r in range(the_set.n):
        same("show " + name, show(sheet, r), sheet[6 + 18 * r :][:17])
    same("show past " + name, show(sheet, the_set.n), b"")

for name, refusal, bounds in BOUNDS:
    places = [77] * 34
    same("analyse " + name, analyse(examples.SHEETS[name], places), refusal)
    same("bounds " + name, places, bounds + [77] * (34 - len(bounds)))

# Instance 0 of C's last row gives only 6: with deadline 6 the refusal is at instance 1.
same("printed a", printed(examples.A),
     "accepted 2\nrow processor bound deadline\n0 0 2 4\n1 1 6 12\n")
same("printed c6", printed(examples.C6), "refused 11 2 1\n")
same("printed empty", printed(examples.EMPTY), "accepted 0\nrow processor bound deadline\n")

state = run(examples.A, [(0, 0), (0, 1)], 6)
same("A's responses", [job.worst for job in state.jobs[:2]], [2, 6])
same("A's completed", [job.completed for job in state.jobs[:2]], [1, 1])
state = run(examples.J, [(0, 1), (1, 0), (3, 2), (7, 0)], 10)
same("J run", (state.jobs[2].worst, state.jobs[2].completed), (7, 1))

# The climb finds what a search through every whole number finds.
dice = Dice(4)
for _ in range(300):
    terms = [(dice.between(1, 20), dice.between(1, 8), dice.below(6)) for _ in range(dice.between(1, 4))]
    B = dice.below(9)

    def F(x):
        return B + sum([up(x + late, T) * e for T, e, late in terms])

    plain = [x for x in range(1, 401) if x == F(x)]
    same("climb", least(F, 1, 400), plain[0] if plain else None)

finish("examples")
