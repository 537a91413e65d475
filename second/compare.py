"""compare.py SEED ROUNDS: the proved calls held against the second program on fresh cases.

Each round has its own seed, from SEED on. It makes every kind of case that the kept trials have, runs them in the program
trials and compares each line with the one expected. Prints each case whose lines differ and, at the end, how many of
each kind were compared; the status is 0 where none differs. A round takes about half a minute.
"""

import collections
import os
import subprocess
import sys
import tempfile

from cases import cases_of, read_file
from play import commands_of
from sheet import big

HERE = os.path.dirname(os.path.abspath(__file__))
RUN = os.path.join(os.path.dirname(HERE), "run")
KINDS = {
    "R": "read", "F": "read", "S": "shown", "W": "written", "V": "written", "A": "analysed", "B": "analysed",
    "T": "texts composed", "L": "sheets listed",
}


def script(name, *words):
    subprocess.run([sys.executable, os.path.join(HERE, name), *words], check=True)


def board_calls(data):
    for letter, part in commands_of(data[2 + big(data[:2]) :]):
        if letter in "tn":
            yield "ticks", big(part) if letter == "n" else 1
        elif letter in "rR":
            yield "releases", 1


def count(counts, kind, data):
    if kind in KINDS:
        counts[KINDS[kind]] += 1
        return
    counts["runs of the board"] += 1
    for call, times in board_calls(data):
        counts[call] += times


def compare(about, seed, folder, counts):
    """The number of cases whose lines differ."""
    made, expected = [os.path.join(folder, name) for name in ("made", "expected")]
    script("make_%s_cases.py" % about, made, str(seed))
    script("expect_%s.py" % about, made, expected)
    with open(made, "rb") as cases:
        printed = subprocess.run([RUN, "trials"], stdin=cases, stdout=subprocess.PIPE, check=True).stdout
    ours, theirs = printed.split(b"\n"), read_file(expected).split(b"\n")
    differing = [k for k in range(max(len(ours), len(theirs))) if ours[k : k + 1] != theirs[k : k + 1]]
    for k in differing:
        print("%s, seed %d, case %d: printed %s, expected %s" % (about, seed, k, ours[k : k + 1], theirs[k : k + 1]))
    for kind, data in cases_of(read_file(made)):
        count(counts, kind, data)
    return len(differing)


def main(seed, rounds):
    counts, differing = collections.Counter(), 0
    with tempfile.TemporaryDirectory() as folder:
        for round_seed in range(seed, seed + rounds):
            for about in ("sheet", "bounds", "board", "text"):
                differing += compare(about, round_seed, folder, counts)
    for kind, times in counts.items():
        print("%10d %s" % (times, kind))
    print("%10d differ" % differing)
    return 1 if differing else 0


if __name__ == "__main__":
    sys.exit(main(int(sys.argv[1]), int(sys.argv[2])))
