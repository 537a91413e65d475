"""make_board_cases.py STDIN [SEED]: the cases of the trials of the board (cases.py has their outer form).

  P  a sheet's length (2 bytes), the sheet, and commands (play.py has them). The board is started
     with the sheet and the commands are carried out. Prints the start's refusal and the digest.
  Q  the same with, before the digest, of each release its number, and of each tick its number, the
     token's processor (256: none) and the word of completed rows.
A line begins with the case's kind. A refusal is printed as number, row, instance; a digest as 16
hexadecimal digits; the rest decimal; each after a single space. No input is over 4,096 bytes.
"""

from board import ABSENT, COMPUTATION, LAST_CLOCK, MEMORY, WAITING, ZERO_STATE, Job, has_shape
from cases import case, make_file
from dice import Dice
from examples import A, J, SHEETS, sheet_with
from play import NO_HAND, Play
from sheet import Row, set_with

TOP32 = (1 << 32) - 1
TOP64 = (1 << 64) - 1
MOST_BYTES = 4_096

dice = Dice(3)
out = []


def put(kind, sheet, commands):
    data = len(sheet).to_bytes(2, "big") + sheet + commands
    assert len(data) <= MOST_BYTES, len(data)
    out.append(case(kind, data))


TICK, KEEP, BACK = b"t", b"k", b"b"


def ticks(k):
    return b"n" + k.to_bytes(2, "big")


def release(row):
    return b"r" + bytes([row]) if row < 256 else b"R" + row.to_bytes(8, "big")


def poke(field, index, value):
    return b"p" + bytes([field, index]) + value.to_bytes(8, "big")


# Runs from a fresh start.


def run_of(releases, end):
    """Each (clock, row) is released at its clock; `end` ticks."""
    commands = b""
    for t in range(end):
        commands += b"".join([release(row) for clock, row in releases if clock == t]) + TICK
    return commands


def examples():
    put("Q", A, run_of([(0, 0), (0, 1)], 8))
    put("Q", J, run_of([(0, 1), (1, 0), (3, 2), (7, 0)], 14))
    for sheet in SHEETS.values():
        rows = [release(r) for r in range(sheet[4])]
        put("Q", sheet, b"")
        put("Q", sheet, b"".join(rows + rows) + (b"".join(rows) + TICK) * 20)
        put("P", sheet, b"".join(rows) + (ticks(3) + b"".join(rows)) * 100)
    for sheet in (b"", b"\1", A[:-1], b"\2" + A[1:], bytes([1, 0, 5, 0, 0]), sheet_with(1, (0, 1, 1, 4, 5))):
        put("Q", sheet, TICK + release(0) + release(TOP64) + ticks(2) + BACK + TICK)
    put("Q", SHEETS["empty"], TICK + release(0) + release(255) + release(TOP64) + ticks(3))


def small_row(p, most=4, top=12):
    m, c = dice.between(0, most), dice.between(0, most)
    T = dice.between(1, top)
    return (p, m, c or (1 if m == 0 else 0), T, dice.between(1, T))


def small_sheet(N, n, most=4, top=12):
    return sheet_with(N, *[small_row(p, most, top) for p in sorted([dice.below(N) for _ in range(n)])])


def any_row(n):
    if dice.chance(90) and n > 0:
        return dice.below(n)
    return dice.one_of([n, n + 1, 31, 32, 33, 255, 256, 1 << 32, 1 << 63, TOP64, dice.word()])


def random_runs():
    for k in range(500):
        N = dice.between(1, 8)
        n = dice.one_of([0, 1, 2, 3, 4, 6, 9, 14, 32])
        busy = dice.one_of([10, 30, 60, 90])
        commands = b""
        for _ in range(dice.between(10, 60)):
            commands += release(any_row(n)) if dice.chance(busy) else TICK
        put("Q" if k % 25 == 0 else "P", small_sheet(N, n, dice.one_of([1, 4, 9]), dice.one_of([2, 12, 40])), commands)


def greedy_runs():
    """Every row is released again at every clock: each as soon as it may be, the others refused."""
    for _ in range(40):
        N, n = dice.between(1, 8), dice.between(1, 12)
        all_rows = b"".join([release(r) for r in range(n)])
        put("P", small_sheet(N, n, dice.one_of([1, 3, 8]), dice.one_of([3, 20])), (all_rows + TICK) * 30)


def long_runs():
    for _ in range(30):
        N, n = dice.between(1, 8), dice.between(1, 10)
        commands = b""
        for _ in range(40):
            commands += b"".join([release(r) for r in range(n) if dice.chance(60)])
            commands += ticks(dice.one_of([1, 2, 5, 17, 40]))
        put("P", small_sheet(N, n, 6, dice.one_of([20, 60])), commands)


def exact_periods():
    """A release one tick before last + T, at it, and one after; with the job done and not done."""
    for T in (1, 2, 3, 7, 300):
        for e in (1, 2, 3, T):
            for m in sorted({0, 1, e}):
                sheet = sheet_with(1, (0, min(m, e), e - min(m, e), T, T))
                again = release(0) + TICK + release(0)
                put("P", sheet, release(0) + ticks(T - 1) + release(0) + TICK + again + ticks(T) + again)
    # The last release lies far back, and T is at its limit.
    sheet = sheet_with(1, (0, 1, 1, 1_000_000, 5))
    for last in (0, 1):
        for clock in (last + 999_998, last + 999_999, last + 1_000_000, last + 1_000_001, LAST_CLOCK):
            if clock <= LAST_CLOCK:
                pokes = poke(7, 0, clock) + poke(9, 0, 1) + poke(10, 0, last)
                put("Q", sheet, pokes + release(0) + TICK + release(0) + TICK + TICK)


def last_clocks():
    for _ in range(40):
        N, n = dice.between(1, 8), dice.between(1, 8)
        commands = poke(7, 0, LAST_CLOCK - dice.below(12))
        for _ in range(30):
            commands += release(any_row(n)) if dice.chance(50) else TICK
        put("P", small_sheet(N, n), commands + ticks(14) + release(0) + TICK)
    put("Q", A, poke(7, 0, LAST_CLOCK) + release(0) + TICK + release(0) + release(1) + TICK)
    put("Q", A, poke(7, 0, LAST_CLOCK - 1) + release(0) + release(1) + TICK + TICK + release(1))
    put("Q", A, poke(7, 0, LAST_CLOCK + 1) + release(0) + TICK)


# States given outright.


def pokes_to(state):
    """The pokes that make this state of the all-zero one."""
    commands = poke(0, 0, state.set.N) + poke(1, 0, state.set.n) + poke(7, 0, state.clock)
    for i, row in enumerate(state.set.rows):
        commands += b"".join([poke(2 + k, i, number) for k, number in enumerate(row) if number])
    for p, held in enumerate(state.hands):
        commands += b"" if held is None else poke(8, p, held)
    for i, job in enumerate(state.jobs):
        numbers = (int(job.ever), job.last, (job.kind << 32) + job.left, job.worst, job.completed)
        commands += b"".join([poke(9 + k, i, number) for k, number in enumerate(numbers) if number])
    return commands


def limit_row(p):
    most = dice.one_of([2, 9, 1_000_000])
    T = dice.one_of([1, 5, 1_000_000])
    m, c = dice.one_of([0, 1, most]), dice.one_of([0, 1, most])
    return Row(p, m, c or (1 if m == 0 else 0), T, dice.one_of([1, T]))


def job_with(clock, kind, left):
    def past():
        return dice.one_of([0, clock, dice.between(0, clock), clock - min(clock, dice.below(9))])

    return Job(True, past(), kind, left, past(), past())


def shaped_state(N, n, clock):
    """A state of the stated shape, seldom one that a run reaches."""
    rows = [limit_row(p) for p in sorted([dice.below(N) for _ in range(n)])]
    jobs = [dice.one_of([None, job_with(clock, ABSENT, 0), job_with(clock, WAITING, 0)]) for _ in rows]
    hands = [None] * 8
    for p in range(N):
        own = [r for r in range(n) if rows[r].processor == p]
        if own and dice.chance(70):
            r = hands[p] = dice.one_of(own)
            kinds = [(MEMORY, rows[r].m), (COMPUTATION, rows[r].c)]
            kind, most = dice.one_of([pair for pair in kinds if pair[1] > 0])
            jobs[r] = job_with(clock, kind, dice.one_of([1, most, min(2, most), dice.between(1, most)]))
    jobs = [job or ZERO_STATE.jobs[0] for job in jobs] + list(ZERO_STATE.jobs[n:])
    state = ZERO_STATE._replace(set=set_with(N, rows), clock=clock, hands=tuple(hands), jobs=tuple(jobs))
    assert has_shape(state)
    return state


def some_clock():
    return dice.one_of([0, 1, 7, 100, 1_000_000, dice.below(LAST_CLOCK), LAST_CLOCK - 3, LAST_CLOCK])


def shaped_states():
    for k in range(350):
        N, n = dice.between(1, 8), dice.one_of([1, 2, 3, 5, 8, 12])
        state = shaped_state(N, n, some_clock())
        commands = pokes_to(state) + KEEP + TICK + TICK + BACK
        for _ in range(6):
            commands += release(any_row(n)) + (TICK if dice.chance(50) else b"")
        commands += BACK + ticks(5)
        put("Q" if k % 25 == 0 else "P", b"", commands)


FIELDS = {
    0: lambda s, i: [0, 1, s.set.N - 1, s.set.N + 1, 8, 9, 255],
    1: lambda s, i: [0, s.set.n - 1, s.set.n + 1, 31, 32, 33, 256, TOP64],
    2: lambda s, i: [0, 1, s.set.rows[i].processor + 1, s.set.N, 255],
    3: lambda s, i: [0, 1, s.set.rows[i].m - 1, s.set.rows[i].m + 1, 1_000_000, 1_000_001, TOP32],
    4: lambda s, i: [0, 1, s.set.rows[i].c - 1, s.set.rows[i].c + 1, 1_000_000, 1_000_001, TOP32],
    5: lambda s, i: [0, 1, s.set.rows[i].D - 1, s.set.rows[i].T + 1, 1_000_000, 1_000_001, TOP32],
    6: lambda s, i: [0, 1, s.set.rows[i].T, s.set.rows[i].T + 1, TOP32],
    7: lambda s, i: [0, s.clock - 1, s.clock + 1, LAST_CLOCK, LAST_CLOCK + 1, TOP32],
    8: lambda s, i: [NO_HAND] + list(range(s.set.n + 1)) + [31, 32, TOP32],
    9: lambda s, i: [0, 1],
    10: lambda s, i: [0, s.clock, s.clock + 1, TOP32],
    11: lambda s, i: [kind << 32 for kind in (ABSENT, WAITING)]
    + [(MEMORY << 32) + left for left in (0, 1, s.set.rows[i].m, s.set.rows[i].m + 1, TOP32)]
    + [(COMPUTATION << 32) + left for left in (0, 1, s.set.rows[i].c, s.set.rows[i].c + 1, TOP32)],
    12: lambda s, i: [0, s.clock, s.clock + 1, TOP32],
    13: lambda s, i: [0, s.clock, s.clock + 1, TOP32],
}


def tries(state):
    """Every field set to each telling value, the rest of the state as it is; then a tick and a release."""
    n = state.set.n
    rows = sorted({*range(n), min(n, 31), 31})
    for field, values in FIELDS.items():
        places = range(8) if field == 8 else [0] if field in (0, 1, 7) else rows
        for i in places:
            for value in values(state, i):
                if value >= 0:
                    asked = i if field != 8 else min(value, 255)
                    yield BACK + poke(field, i, value) + TICK + BACK + poke(field, i, value) + release(asked)


def put_in_parts(sheet, begin, pieces):
    """As many cases as it takes, each beginning the same way."""
    commands = begin
    for piece in pieces:
        if len(sheet) + len(commands) + len(piece) > MOST_BYTES - 2:
            put("P", sheet, commands)
            commands = begin
        commands += piece
    put("P", sheet, commands)


def altered_states():
    # Reached ones: early and late in a run, with rows in each standing.
    for N, n, steps in ((1, 1, 3), (2, 3, 9), (3, 5, 14), (8, 9, 25), (2, 32, 30)):
        sheet = small_sheet(N, n, 5, 30)
        begin = b""
        for _ in range(steps):
            begin += release(dice.below(n)) + (TICK if dice.chance(60) else b"")
        play = Play(sheet)
        play.run(begin)
        pieces = list(tries(play.state))
        if n == 32:
            pieces = [piece for piece in pieces if dice.chance(12)]
        put_in_parts(sheet, begin + KEEP, pieces)
    for N, n in ((1, 2), (3, 4), (8, 8)):
        state = shaped_state(N, n, some_clock())
        put_in_parts(b"", pokes_to(state) + KEEP, tries(state))
    # From the all-zero state, one field at a time.
    put_in_parts(b"", KEEP, tries(ZERO_STATE))


def doubly_altered_states():
    for _ in range(250):
        N, n = dice.between(1, 4), dice.between(1, 4)
        state = shaped_state(N, n, some_clock())
        commands = pokes_to(state) + KEEP
        for _ in range(12):
            commands += BACK
            for _ in range(2):
                field = dice.one_of([2, 3, 4, 7, 8, 8, 9, 10, 11, 11, 11, 12, 13])
                i = dice.below(n + 1)
                values = [value for value in FIELDS[field](state, i) if value >= 0]
                commands += poke(field, i, dice.one_of(values))
            commands += TICK + release(dice.below(n + 1))
        put("P", b"", commands)


def held_elsewhere():
    """In hand and in a phase must agree, row by row and processor by processor."""
    sheet = sheet_with(3, (0, 2, 2, 9, 9), (0, 0, 3, 9, 9), (2, 3, 0, 9, 9))
    for p in range(8):
        for held in (0, 1, 2, 3, NO_HAND):
            for r in range(3):
                for standing in ((MEMORY << 32) + 1, (COMPUTATION << 32) + 1, WAITING << 32):
                    pokes = poke(7, 0, 5) + poke(9, r, 1) + poke(11, r, standing) + poke(8, p, held)
                    put("P", sheet, pokes + TICK + release(0))


def make():
    examples()
    random_runs()
    greedy_runs()
    long_runs()
    exact_periods()
    last_clocks()
    shaped_states()
    altered_states()
    doubly_altered_states()
    held_elsewhere()
    return b"".join(out)


if __name__ == "__main__":
    make_file(make, dice)
