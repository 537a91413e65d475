"""The sheet: reading, showing and writing. Written from the paper's rules alone."""

from collections import namedtuple

CUT, VERSION, LENGTH, COUNT, RECORD, PROCESSOR, PERIOD, DEADLINE, PHASES = range(1, 10)
BUSY, LATE, ROOM, STATE, ROW, EARLY, LIVE, CLOCK = range(10, 18)

MOST_PROCESSORS = 8
MOST_ROWS = 32
LONGEST = 1_000_000

Refusal = namedtuple("Refusal", "number row instance")
Row = namedtuple("Row", "processor m c T D")
Set = namedtuple("Set", "N n rows")  # rows is always a tuple of 32

ACCEPTED = Refusal(0, 0, 0)
ZERO_ROW = Row(0, 0, 0, 0, 0)
ZERO_SET = Set(0, 0, (ZERO_ROW,) * MOST_ROWS)


def refused(number, row=0, instance=0):
    return Refusal(number, row, instance)


def printed_refusal(refusal):
    """A refusal as the programs print it."""
    return "refused %d %d %d\n" % refusal


def set_with(N, rows):
    """The set of these rows, with zero rows after them."""
    return Set(N, len(rows), tuple(rows) + (ZERO_ROW,) * (MOST_ROWS - len(rows)))


def length_with(n):
    """The length of a sheet of n rows."""
    return 5 + 18 * n


def big(part):
    return int.from_bytes(part, "big")


def row_of(part):
    """The row that a record's 17 bytes spell; any other part spells the zero row."""
    if len(part) != 17:
        return ZERO_ROW
    return Row(part[0], big(part[1:5]), big(part[5:9]), big(part[9:13]), big(part[13:17]))


def count_fails(N, n):
    return N == 0 or N > MOST_PROCESSORS or n > MOST_ROWS


def row_fault(row, N, before):
    """The first of 6 to 9 that applies to a row after one on processor `before`; 0 if none."""
    if row.processor >= N or row.processor < before:
        return PROCESSOR
    if row.T < 1 or row.T > LONGEST:
        return PERIOD
    if row.D < 1 or row.D > row.T:
        return DEADLINE
    if row.m > LONGEST or row.c > LONGEST or (row.m == 0 and row.c == 0):
        return PHASES
    return 0


def set_fault(the_set):
    """4, then 6 to 9 for each row."""
    if count_fails(the_set.N, the_set.n):
        return refused(COUNT)
    before = 0  # no processor is below 0, so the first row has none before it to fall from
    for r in range(the_set.n):
        row = the_set.rows[r]
        number = row_fault(row, the_set.N, before)
        if number:
            return refused(number, r)
        before = row.processor
    return ACCEPTED


def read(sheet):
    """A refusal and a set."""
    if len(sheet) < 5:
        return refused(CUT), ZERO_SET
    if sheet[0] != 1:
        return refused(VERSION), ZERO_SET
    stated, N, n = big(sheet[1:3]), sheet[3], sheet[4]
    if stated != len(sheet) or stated != length_with(n):
        return refused(LENGTH), ZERO_SET
    if count_fails(N, n):
        return refused(COUNT), ZERO_SET
    rows = []
    before = 0
    for r in range(n):
        record = sheet[5 + 18 * r : 23 + 18 * r]
        row = row_of(record[1:])
        number = RECORD if record[0] != 17 else row_fault(row, N, before)
        if number:
            return refused(number, r), ZERO_SET
        before = row.processor
        rows.append(row)
    return ACCEPTED, set_with(N, rows)


def show(sheet, row):
    """The row's own 17 bytes of the sheet, or the empty part."""
    refusal, the_set = read(sheet)
    if refusal.number or row >= the_set.n:
        return sheet[:0]
    return sheet[6 + 18 * row : 23 + 18 * row]


def bytes_of(the_set):
    """The sheet of a set that the writer takes."""
    n = the_set.n
    sheet = bytes([1]) + length_with(n).to_bytes(2, "big") + bytes([the_set.N, n])
    for row in the_set.rows[:n]:
        sheet += bytes([17, row.processor])
        for number in (row.m, row.c, row.T, row.D):
            sheet += number.to_bytes(4, "big")
    return sheet


def write(the_set, buffer):
    """A refusal; on acceptance the buffer (a bytearray) begins with the set's sheet."""
    refusal = set_fault(the_set)
    if refusal.number:
        return refusal
    length = length_with(the_set.n)
    if len(buffer) < length:
        return refused(ROOM)
    buffer[:length] = bytes_of(the_set)
    return ACCEPTED
