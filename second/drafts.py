"""Sheets in the making for the cases: good ones, and what makes each fault of one.

A row here is a list of its five numbers: processor, m, c, T, D.
"""

TOP32 = (1 << 32) - 1


class Draft:
    """A sheet in the making. `stated`, `n` and `lengths` say what the right values would not."""

    def __init__(self, N, rows):
        self.version, self.stated, self.N, self.n = 1, None, N, None
        self.rows = [list(row) for row in rows]
        self.lengths = [17] * len(rows)
        self.tail = b""

    def bytes(self):
        n = len(self.rows) if self.n is None else self.n
        length = 5 + 18 * len(self.rows) + len(self.tail)
        stated = length if self.stated is None else self.stated
        data = bytes([self.version]) + (stated & 65535).to_bytes(2, "big") + bytes([self.N, n])
        for length, row in zip(self.lengths, self.rows):
            data += bytes([length]) + bytes_of_row(row)
        return data + self.tail


def bytes_of_row(row):
    return bytes([row[0]]) + b"".join([number.to_bytes(4, "big") for number in row[1:]])


def good_number(dice, most):
    return dice.one_of([0, 1, most, dice.between(0, most), dice.between(0, min(most, 300))])


def good_row(dice, processor):
    T = max(1, good_number(dice, 1_000_000))
    D = max(1, good_number(dice, T))
    m, c = good_number(dice, 1_000_000), good_number(dice, 1_000_000)
    return [processor, m, c or (1 if m == 0 else 0), T, D]


def good_rows(dice, N, n):
    return [good_row(dice, p) for p in sorted([dice.below(N) for _ in range(n)])]


def good_draft(dice, n, N=None):
    N = N or dice.between(1, 8)
    return Draft(N, good_rows(dice, N, n))


def row_faults(N, before):
    """The faults 6 to 9 of a row after one on processor `before`: what each makes of the row."""
    faults = {
        "processor N": lambda row: [N] + row[1:],
        "processor 255": lambda row: [255] + row[1:],
        "period 0": lambda row: row[:3] + [0] + row[4:],
        "period past": lambda row: row[:3] + [1_000_001] + row[4:],
        "period top": lambda row: row[:3] + [TOP32] + row[4:],
        "deadline 0": lambda row: row[:4] + [0],
        "deadline past": lambda row: row[:4] + [row[3] + 1],
        "deadline top": lambda row: row[:4] + [TOP32],
        "phases none": lambda row: row[:1] + [0, 0] + row[3:],
        "memory past": lambda row: row[:1] + [1_000_001] + row[2:],
        "memory top": lambda row: row[:1] + [TOP32] + row[2:],
        "computation past": lambda row: row[:2] + [1_000_001] + row[3:],
        "computation top": lambda row: row[:2] + [TOP32] + row[3:],
    }
    if before > 0:
        faults["processor falls"] = lambda row: [before - 1] + row[1:]
    return faults


def set_row_fault(draft, r, name):
    before = draft.rows[r - 1][0] if r > 0 else 0
    fault = row_faults(draft.N, before).get(name)
    if fault:
        draft.rows[r] = fault(draft.rows[r])


ROW_FAULTS = sorted(row_faults(1, 1))
ONE_OF_EACH = ["processor falls", "period past", "deadline past", "phases none"]
HEAD_FAULTS = {
    "version": lambda d: setattr(d, "version", 2),
    "stated": lambda d: setattr(d, "stated", 6 + 18 * len(d.rows)),
    "tail": lambda d: setattr(d, "tail", b"\0"),
    "count": lambda d: setattr(d, "N", 0),
}


def high_rows(n):
    """Rows that leave room for a processor to fall at every place but the first."""
    return Draft(8, [[min(7, 1 + r // 4), 1 + r, 2 + r, 1000 + r, 900 + r] for r in range(n)])


def anything_row(dice):
    return [dice.below(256)] + [dice.below(TOP32 + 1) for _ in range(4)]
