"""The outer form of every trial's standard input, the same for all trial programs.

A case is: its kind (1 byte, a letter), the length of its payload (3 bytes), a number of zeros
(3 bytes), and the payload; all big-endian. Its input is the payload followed by that many zero
bytes. Every case prints one line. The input ends at the first case that is not whole.
"""

import sys

PATTERN = 251


def case(kind, payload, zeros=0):
    return kind.encode() + len(payload).to_bytes(3, "big") + zeros.to_bytes(3, "big") + payload


def cases_of(data):
    """Each case's kind and input."""
    at = 0
    while at < len(data):
        kind = chr(data[at])
        length = int.from_bytes(data[at + 1 : at + 4], "big")
        zeros = int.from_bytes(data[at + 4 : at + 7], "big")
        yield kind, data[at + 7 : at + 7 + length] + bytes(zeros)
        at += 7 + length


def write_file(path, data):
    with open(path, "wb") as file:
        file.write(data)


def make_file(make, dice):
    """The command of each make_*_cases.py: STDIN [SEED]. Without a seed the cases are the ones that are kept."""
    if len(sys.argv) > 2:
        dice.state = int(sys.argv[2])
    write_file(sys.argv[1], make())


def read_file(path):
    with open(path, "rb") as file:
        return file.read()


def expect_file(line_of):
    """The command of each expect_*.py: STDIN STDOUT. `line_of` gives the line of a kind and an input."""
    lines = [line_of(kind, data) + "\n" for kind, data in cases_of(read_file(sys.argv[1]))]
    write_file(sys.argv[2], "".join(lines).encode())


def spelt(numbers):
    return " ".join([str(number) for number in numbers])


def lent_buffer(length):
    """A buffer as the trials lend it: no byte is like its neighbours, so that one out of place shows."""
    return bytearray([i % PATTERN for i in range(length)])
