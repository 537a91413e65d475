"""expect_sheet.py STDIN STDOUT: what the trials of the sheet must print (make_sheet_cases.py has the forms)."""

from cases import expect_file, lent_buffer, spelt
from dice import digest
from sheet import MOST_ROWS, Set, big, read, row_of, show, write


def fields(rows):
    return [number for row in rows for number in row]


def line_of_read(sheet):
    refusal, (N, n, rows) = read(sheet)
    return "%s %d %d %016x" % (spelt(refusal), N, n, digest(fields(rows)))


def line_of_fields(sheet):
    return "%s %s" % (line_of_read(sheet), spelt(fields(read(sheet)[1].rows)))


def line_of_show(payload):
    part = show(payload[8:], big(payload[:8]))
    return "%d %s %s" % (len(part), part.hex(), spelt(row_of(part)))


def written(payload):
    rows = [row_of(payload[11 + 17 * k : 28 + 17 * k]) for k in range(MOST_ROWS)]
    buffer = lent_buffer(big(payload[:2]))
    refusal = write(Set(payload[2], big(payload[3:11]), tuple(rows)), buffer)
    return refusal, buffer


def line_of_write(payload):
    refusal, buffer = written(payload)
    return "%s %016x" % (spelt(refusal), digest(buffer))


def line_of_buffer(payload):
    return "%s %s" % (line_of_write(payload), written(payload)[1].hex())


LINES = {
    "R": line_of_read,
    "F": line_of_fields,
    "S": line_of_show,
    "W": line_of_write,
    "V": line_of_buffer,
}


def line_of(kind, data):
    return "%s %s" % (kind, LINES[kind](data))


if __name__ == "__main__":
    expect_file(line_of)
