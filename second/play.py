"""The commands of the board's trials, and what they do.

A command is a letter and its numbers, big-endian:
  t                             a tick
  n  ticks (2 bytes)            that many ticks
  r  row (1 byte)               a release
  R  row (8 bytes)              a release
  p  field, index, value        one field of the state is set (1, 1 and 8 bytes)
  k                             the state is kept aside
  b                             the state is what was last kept aside, or the fresh start
Anything else is passed over, and so is a command that is cut short.

The fields, with value v and index i (of a row or a job modulo 32, of a hand modulo 8):
  0 N = v mod 256        1 n = v                 7 clock = v
  2 row i's processor = v mod 256     3 its m   4 its c   5 its T   6 its D
  8 hand i: row v, or none where v is 2^32 or more
  9 job i was ever released: v is not 0          10 its last release
  11 its standing: v / 2^32 mod 4 is 0 absent, 1 waiting, 2 in memory, 3 in computation, with
     v mod 2^32 ticks left in the last two        12 its worst response   13 its completed number
where 3 to 7, 10, 12 and 13 take v mod 2^32.

The digest goes over all answers and states. An answer is its refusal's number, row and instance and,
of a tick, the token's processor (256: none) and a word with bit r set for each completed row r. A
state is: N, n, the 32 rows' fields, clock, the 8 hands (row, 2^32 for none), and for each of 32 jobs
ever (0 or 1), last release, standing (as above), worst, completed. The start's refusal and state come
first; then each tick's and release's answer and state; of n, all the answers and then the last state.
"""

from board import COMPUTATION, MEMORY, release, start, tick
from dice import digest
from sheet import MOST_PROCESSORS, MOST_ROWS, big

NO_TOKEN = 256
NO_HAND = 1 << 32
HALF = (1 << 32) - 1
ROW_FIELDS = {2: "processor", 3: "m", 4: "c", 5: "T", 6: "D"}
JOB_FIELDS = {10: "last", 12: "worst", 13: "completed"}
LENGTHS = {"t": 0, "n": 2, "r": 1, "R": 8, "p": 10, "k": 0, "b": 0}


def numbers_of_state(state):
    numbers = [state.set.N, state.set.n]
    for row in state.set.rows:
        numbers += row
    numbers.append(state.clock)
    numbers += [NO_HAND if held is None else held for held in state.hands]
    for job in state.jobs:
        numbers += (int(job.ever), job.last, (job.kind << 32) + job.left, job.worst, job.completed)
    return numbers


def numbers_of_answer(answer):
    word = sum([1 << r for r in answer.completed])
    return list(answer.refusal) + [NO_TOKEN if answer.token is None else answer.token, word]


def changed(many, i, new):
    return many[:i] + (new,) + many[i + 1 :]


def poked(state, field, index, value):
    the_set, i = state.set, index % MOST_ROWS
    row, job = the_set.rows[i], state.jobs[i]
    if field == 0:
        return state._replace(set=the_set._replace(N=value & 255))
    if field == 1:
        return state._replace(set=the_set._replace(n=value))
    if field in ROW_FIELDS:
        row = row._replace(**{ROW_FIELDS[field]: value & (255 if field == 2 else HALF)})
        return state._replace(set=the_set._replace(rows=changed(the_set.rows, i, row)))
    if field == 7:
        return state._replace(clock=value & HALF)
    if field == 8:
        held = None if value > HALF else value
        return state._replace(hands=changed(state.hands, index % MOST_PROCESSORS, held))
    if field == 9:
        job = job._replace(ever=value != 0)
    elif field in JOB_FIELDS:
        job = job._replace(**{JOB_FIELDS[field]: value & HALF})
    elif field == 11:
        kind = (value >> 32) % 4
        job = job._replace(kind=kind, left=value & HALF if kind in (MEMORY, COMPUTATION) else 0)
    return state._replace(jobs=changed(state.jobs, i, job))


def commands_of(data):
    """Each command's letter and the bytes of its numbers."""
    at = 0
    while at < len(data):
        letter = chr(data[at])
        length = LENGTHS.get(letter)
        part = data[at + 1 : at + 1 + (length or 0)]
        if length is not None and len(part) == length:
            yield letter, part
        at += 1 + (length or 0)


class Play:
    """A board under commands. `told` gathers what each answer says, `digest` all numbers."""

    def __init__(self, sheet):
        self.refusal, self.state = start(sheet)
        self.kept, self.told, self.digest = self.state, [], digest(self.refusal)
        self.fold(numbers_of_state(self.state))

    def fold(self, numbers):
        self.digest = digest(numbers, self.digest)

    def do_tick(self):
        answer, self.state = tick(self.state)
        numbers = numbers_of_answer(answer)
        self.told += [numbers[0], numbers[3], numbers[4]]
        self.fold(numbers)

    def do_release(self, row):
        refusal, self.state = release(self.state, row)
        self.told.append(refusal.number)
        self.fold(refusal)

    def do(self, letter, part):
        if letter == "k":
            self.kept = self.state
        elif letter == "b":
            self.state = self.kept
        elif letter == "p":
            self.state = poked(self.state, part[0], part[1], big(part[2:]))
        else:
            if letter == "t":
                self.do_tick()
            elif letter == "n":
                for _ in range(big(part)):
                    self.do_tick()
            else:
                self.do_release(big(part))
            self.fold(numbers_of_state(self.state))

    def run(self, commands):
        for letter, part in commands_of(commands):
            self.do(letter, part)
