"""The bounds: B, A, L, s, g, f and R as the paper writes them."""

from sheet import ACCEPTED, BUSY, LATE, ROOM, printed_refusal, read, refused

LIMIT = 4_000_000


def up(a, b):
    """a / b rounded up."""
    return -(-a // b)


def least(F, x, limit=None):
    """The least whole number from x on with x = F(x), or None past the limit.

    F never falls and F(x) is at least x. So a solution y from x on has
    y = F(y) at least F(x): the climb x, F(x), F(F(x)), ... never steps over one.
    """
    while limit is None or x <= limit:
        next_x = F(x)
        if next_x == x:
            return x
        x = next_x
    return None


def row_bound(rows, i, R):
    """The refusal of row i, and its bound where it has one. R holds the bounds of the rows before."""
    row = rows[i]
    m_i, c_i, T_i, e_i = row.m, row.c, row.T, row.m + row.c
    higher = [(j.T, j.m + j.c) for j in rows[:i] if j.processor == row.processor]
    lower = [j.m + j.c for j in rows[i + 1 :] if j.processor == row.processor]
    above = [
        (R[k] - (j.m + j.c), j.T, j.m) for k, j in enumerate(rows[:i]) if j.processor < row.processor
    ]
    B = max(lower, default=0)

    def A(x):
        return sum([-(-(x + late) // T) * m for late, T, m in above])

    def busy(x):
        return B + up(x, T_i) * e_i + sum([-(-x // T) * e for T, e in higher]) + A(x)

    L = least(busy, 1, LIMIT)
    if L is None:
        return refused(BUSY, i), None

    worst = 0
    for q in range(up(L, T_i)):

        def W(s):
            return B + q * e_i + sum([(s // T + 1) * e for T, e in higher])

        s = least(lambda x: W(x) + A(x), 0)
        begun = W(s) + m_i
        g = least(lambda x: begun + A(x), 0)
        f = g + c_i
        if f - q * T_i > row.D:
            return refused(LATE, i, q), None
        worst = max(worst, f - q * T_i)
    return ACCEPTED, worst


def bounds_of(the_set):
    """The refusal of 10 or 11 and the bounds of a set that was read."""
    rows, R = the_set.rows[: the_set.n], []
    for i in range(the_set.n):
        refusal, bound = row_bound(rows, i, R)
        if refusal.number:
            return refusal, []
        R.append(bound)
    return ACCEPTED, R


def analyse(sheet, places):
    """A refusal; on acceptance the first n places (of a list) hold the bounds."""
    refusal, the_set = read(sheet)
    if refusal.number:
        return refusal
    if len(places) < the_set.n:
        return refused(ROOM)
    refusal, R = bounds_of(the_set)
    places[: len(R)] = R
    return refusal


def printed(sheet):
    """What the bounds program prints."""
    refusal, the_set = read(sheet)
    places = [0] * the_set.n
    refusal = analyse(sheet, places)
    if refusal.number:
        return printed_refusal(refusal)
    lines = ["accepted %d" % the_set.n, "row processor bound deadline"]
    for i, (bound, row) in enumerate(zip(places, the_set.rows)):
        lines.append("%d %d %d %d" % (i, row.processor, bound, row.D))
    return "\n".join(lines) + "\n"
