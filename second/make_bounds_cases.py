"""make_bounds_cases.py STDIN [SEED]: the cases of the trials of the bounds (cases.py has their outer form).

  A  a number of places (2 bytes, at most 64) and a sheet. Place i of the lent places holds
     4,000,000,000 + i before the sheet is analysed. Prints the refusal and the digest of all places.
  B  the same, and then all places.
A line begins with the case's kind. A refusal is printed as number, row, instance; a digest as 16
hexadecimal digits; the rest decimal; each after a single space. dice.py has the digest.
"""

from analysis import bounds_of
from cases import case, make_file
from dice import Dice
from examples import SHEETS, sheet_with
from sheet import read

FIRST_PLACE = 4_000_000_000
MOST_PLACES = 64

dice = Dice(2)
out = []


def put(kind, places, sheet):
    out.append(case(kind, places.to_bytes(2, "big") + sheet))


def put_rows(N, rows, kind="A", places=None):
    put(kind, len(rows) if places is None else places, sheet_with(N, *rows))


def climbs_slowly(rows):
    """Utilisation as good as 1 for some row, in small steps: seconds on the way to the limit.

    busy_lengths has a few such sheets; the random ones do without.
    """
    for i, (p, _, _, _, _) in enumerate(rows):
        used = sum([(m + c if q == p else m) / T for q, m, c, T, _ in rows[: i + 1]])
        if abs(used - 1) < 0.002 and min([row[3] for row in rows]) < 1000:
            return True
    return False


def put_random(N, rows, kind="A", places=None):
    if not climbs_slowly(rows):
        put_rows(N, rows, kind, places)


def examples():
    for sheet in SHEETS.values():
        n = sheet[4]
        for places in sorted({0, 1, n, n + 1, 32, MOST_PLACES}):
            put("B", places, sheet)
        put("B", n, sheet[:-1])
        put("B", 0, b"\2" + sheet[1:])


def room():
    """ROOM comes after every refusal of reading and before BUSY and LATE."""
    for n in range(33):
        for rows in (
            [(0, 1, 0, 1000, 1000)] * n,
            [(0, 2, 2, 3, 3)] * n,
            [(0, 2, 2, 10, 3)] * n,
            [(0, 1, 1, 0, 0)] * n,
        ):
            for places in sorted({0, max(n, 1) - 1, n, n + 1}):
                put_rows(1, rows, places=places)


# Busy lengths around the limit.


def busy_lengths():
    # L = 2,000,000 + 4 x 500,000 = 4,000,000, and then LATE; one tick more of e or B passes it.
    for e in (499_999, 500_000, 500_001):
        for B in (1_999_999, 2_000_000):
            put_rows(1, [(0, e, 0, 1_000_000, 1_000_000), (0, 1_000_000, B - 1_000_000, 1_000_000, 9)], "B")
    # L = B + 5 x 450,001: 4,000,000 with the first B, and 4,000,001 with the second.
    for B in (1_749_994, 1_749_995, 1_749_996, 1_749_997):
        put_rows(1, [(0, 0, 450_001, 850_000, 850_000), (0, B - 900_000, 900_000, 1_000_000, 9)], "B")
    # The same on processor 1, where half of all ticks go to processor 0's memory.
    for B in (1_999_995, 1_999_996, 1_999_997, 1_999_998):
        rows = [(0, 1, 0, 2, 2), (1, 1, 0, 1_000_000, 1_000_000), (1, B - 1_000_000, 1_000_000, 1_000_000, 9)]
        put_rows(2, rows, "B")
    # Utilisation 1 with a lower row: no busy length, and a long way to the limit.
    for T in (8, 25, 100, 999):
        put_rows(1, [(0, T, 0, T, T), (0, 1, 0, 1000, 1000)], "B")
    # Utilisation 1 with nothing below, and above it.
    for T in (1, 2, 3, 1000, 999_999, 1_000_000):
        for e in (T - 1, T, T + 1):
            for m in sorted({0, 1, e // 2, e}):
                if 0 < e and 0 <= e - m <= 1_000_000 and m <= 1_000_000:
                    put_rows(1, [(0, m, e - m, T, T)])
                    put_rows(3, [(0, m, e - m, T, T), (2, 1, 1, 1000, 1000)])
    # Two periods whose least common multiple is the limit, at utilisation 1.
    for e in (399_999, 400_000, 400_001):
        put_rows(1, [(0, 500_000, 0, 1_000_000, 1_000_000), (0, 0, e, 800_000, 800_000)])
        put_rows(1, [(0, e, 0, 800_000, 800_000), (0, 0, 500_000, 1_000_000, 1_000_000)])
    # Utilisation 1 - 1/(97 x 101): the last row has a long busy length.
    for top in (0, 1, 2):
        put_rows(1, [(0, 48, 0, 97, 97), (0, 0, 50 + top, 101, 101), (0, 1, 0, 9797, 9797)])


# Random sheets.

PERIODS = [
    lambda: dice.between(1, 12),
    lambda: dice.between(10, 100),
    lambda: dice.between(100, 5_000),
    lambda: dice.one_of([10, 20, 40, 50, 100, 200, 400, 500, 1_000]),
    lambda: dice.between(500_000, 1_000_000),
]


def split(e):
    """m and c of a row that lasts e."""
    m = dice.one_of([0, e, e // 2, dice.between(0, e), min(e, 1)])
    return m, e - m


def random_rows(N, n, percent, period):
    """n rows whose ticks take about that share of each processor's time, others' memory included."""
    processors = sorted([dice.below(N) for _ in range(n)])
    left = [percent] * N
    rows = []
    for k, p in enumerate(processors):
        T = period()
        here = processors.count(p)
        share = max(1, percent * dice.between(40, 160) // 100 // here)
        e = max(1, T * min(share, max(left[p], 1)) // 100)
        m, c = split(e)
        for q in range(p, N):
            left[q] -= (100 * e if q == p else 100 * m) // T
        D = dice.one_of([T, T, T, dice.between(1, T), max(1, T - dice.below(T // 4 + 1))])
        rows.append([p, m, c, T, D])
    return rows


def random_sheets():
    for k in range(1300):
        N = dice.between(1, 8)
        n = dice.one_of([0, 1, 2, 3, 4, 5, 6, dice.between(0, 12), dice.between(0, 32)])
        percent = dice.one_of([20, 40, 60, 70, 80, 90, 95, 99, 100, 105])
        rows = random_rows(N, n, percent, dice.one_of(PERIODS))
        places = dice.one_of([n, n, n, n + 1, 32, MOST_PLACES, max(n, 1) - 1, 0]) if k % 5 == 0 else n
        put_random(N, rows, "B" if k % 20 == 0 else "A", places)
    for _ in range(250):
        N, n = dice.between(2, 8), dice.between(20, 32)
        put_random(N, random_rows(N, n, dice.between(10, 60), dice.one_of(PERIODS[1:])))


def tight_deadlines():
    """Every deadline at its bound, then one of them just below: the first instance past it is named."""
    made = 0
    while made < 500:
        N, n = dice.between(1, 4), dice.between(1, 8)
        rows = random_rows(N, n, dice.between(30, 95), dice.one_of(PERIODS[:4]))
        if climbs_slowly(rows):
            continue
        for row in rows:
            row[4] = row[3]
        refusal, R = bounds_of(read(sheet_with(N, *rows))[1])
        if refusal.number:
            continue
        made += 1
        for row, bound in zip(rows, R):
            row[4] = bound
        put_rows(N, rows)
        at = dice.below(n)
        if rows[at][4] > 1:
            rows[at][4] -= 1
            put_rows(N, rows)


def full_rows(low, high, longest, most):
    """Rows by rising period that fill each processor as far as they fit."""
    N = dice.between(1, 2)
    rows, memory = [], 0.0
    for p in range(N):
        used = memory
        for T in sorted([dice.between(low, high) for _ in range(dice.between(2, most))]):
            e = dice.between(1, longest)
            m = dice.between(0, e)
            if used + e / T <= 0.999:
                used, memory = used + e / T, memory + m / T
                rows.append([p, m, e - m, T, T])
    return N, rows


def later_instances():
    """Sheets in which an instance after the first is the first to pass a deadline, and their neighbours."""
    made = 0
    while made < 150:
        N, rows = full_rows(*dice.one_of([(3, 12, 4, 4), (4, 20, 6, 5), (10, 40, 12, 5), (20, 100, 40, 6)]))
        refusal, R = bounds_of(read(sheet_with(N, *rows))[1])
        if refusal.instance > 0:
            made += 1
            put_rows(N, rows)
        if refusal.number or climbs_slowly(rows):
            continue
        for i, bound in enumerate(R):
            if bound == 1:
                continue
            tight = [row[:] for row in rows]
            tight[i][4] = bound - 1
            if bounds_of(read(sheet_with(N, *tight))[1])[0].instance > 0:
                made += 1
                put_rows(N, rows)
                put_rows(N, tight)


def small_sheets():
    """Two and three rows of tiny numbers, where every rounding shows."""
    for _ in range(900):
        N = dice.between(1, 3)
        rows = []
        for p in sorted([dice.below(N) for _ in range(dice.between(1, 4))]):
            T = dice.between(2, 9 if dice.chance(50) else 24)
            m, c = dice.one_of([(0, 1), (1, 0), (1, 1), (2, 0), (2, 1), (1, 2), (3, 0), (0, 3)])
            rows.append((p, m, c, T, T if dice.chance(80) else dice.between(1, T)))
        put_random(N, rows)


def bad_sheets():
    for _ in range(100):
        n = dice.between(1, 4)
        data = bytearray(sheet_with(2, *random_rows(2, n, 50, PERIODS[1])))
        data[dice.below(len(data))] ^= 1 << dice.below(8)
        put("A", dice.one_of([0, n]), bytes(data))


def make():
    examples()
    room()
    busy_lengths()
    random_sheets()
    tight_deadlines()
    later_instances()
    small_sheets()
    bad_sheets()
    return b"".join(out)


if __name__ == "__main__":
    make_file(make, dice)
