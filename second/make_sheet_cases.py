"""make_sheet_cases.py STDIN [SEED]: the cases of the trials of the sheet (cases.py has their outer form).

Every number in an input is big-endian; a row is 17 bytes as in a sheet: processor, m, c, T, D.
  R  a sheet. Prints refusal, N, n, digest of all 5 x 32 fields of the set's rows in order.
  F  the same, and then all 5 x 32 fields.
  S  a row number (8 bytes) and a sheet. Prints the shown part's length, its bytes in hexadecimal,
     and the fields of the row that it spells.
  W  a buffer's length (2 bytes, at most 1,024), and a set: N (1 byte), n (8 bytes), rows, of which
     those not given are zero. Byte i of the buffer is i modulo 251 before the set is written
     there. Prints the refusal and the digest of all of the buffer.
  V  the same, and then all of the buffer in hexadecimal.
A line begins with the case's kind. A refusal is printed as number, row, instance; a digest as 16
hexadecimal digits; the rest decimal; each after a single space. dice.py has the digest.
"""

from cases import case, make_file
from dice import Dice
from drafts import HEAD_FAULTS, ONE_OF_EACH, ROW_FAULTS, TOP32, Draft, bytes_of_row, high_rows, set_row_fault
from drafts import anything_row, good_draft, good_row, good_rows
from examples import SHEETS, A
from sheet import read

TOP64 = (1 << 64) - 1
# 18 times the first of these is 16 below 2^64, and the others lie around it.
WRAPPING = [1024819115206086200, 1024819115206086199, 1024819115206086201, 1 << 60]

dice = Dice(1)
out = []


def put(kind, payload, zeros=0):
    out.append(case(kind, bytes(payload), zeros))


# Sheets, fault by fault.


def sheet_examples():
    for sheet in SHEETS.values():
        put("F", sheet)
        for k in range(len(sheet)):
            put("R", sheet[:k])
        put("R", sheet, 1)


def short_sheets():
    for k in range(6):
        for byte in (0, 1, 255):
            put("F", bytes([byte] * k))
        for N in (0, 1, 8, 9):
            put("F", bytes([1, 0, 5, N, 0])[:k])
            put("R", bytes([2, 0, 5, N, 0])[:k])
            put("R", bytes([1, 0, k, N, 0])[:k])


def lengths():
    put("F", A, 65_536)
    put("R", A, 65_535)
    put("R", A, 65_495)
    put("R", bytes([1, 0, 5, 1, 0]), 65_536)
    for stated in (0, 4, 5, 40, 41, 42, 59, 0x2900, 65_535):
        for n in (0, 1, 2, 3, 255):
            put("R", bytes([1]) + stated.to_bytes(2, "big") + bytes([2, n]) + A[5:])
    # The stated length and n agree, and the sheet has another length; then n over 32 throughout.
    for n in range(0, 256):
        length = 5 + 18 * n
        head = bytes([1]) + length.to_bytes(2, "big") + bytes([1 + n % 8, n])
        put("R", head, length - 5)
        put("R", head, length - 4)
        if n > 0:
            put("R", head, length - 6)
            put("R", bytes([1, 0, 5, 1, n]))
    for N in range(256):
        for n in (0, 1, 33):
            length = 5 + 18 * n
            rows = b"".join([b"\x11" + bytes_of_row([0, 1, 1, 4, 4]) for _ in range(min(n, 1))])
            head = bytes([1]) + length.to_bytes(2, "big") + bytes([N, n])
            put("R", head + rows, length - 5 - len(rows))


def faults_at_every_row():
    for n in (32, 7, 2, 1):
        for r in range(n):
            draft = high_rows(n)
            draft.lengths[r] = dice.one_of([0, 16, 18, 255])
            put("R", draft.bytes())
            names = ONE_OF_EACH if n > 7 else ROW_FAULTS
            for name in names:
                draft = high_rows(n)
                set_row_fault(draft, r, name)
                put("R", draft.bytes())
    # The faulty row is the sheet's last.
    for n in range(1, 33):
        for name in ("period 0", "processor N", "memory past"):
            draft = high_rows(n)
            set_row_fault(draft, n - 1, name)
            put("R", draft.bytes())


def pairs_of_faults():
    places = [(name, None) for name in HEAD_FAULTS]
    for r in (0, 1, 2):
        places += [(name, r) for name in ONE_OF_EACH + ["record"]]
    for first in places:
        for second in places:
            draft = high_rows(3)
            for name, r in (first, second):
                if r is None:
                    HEAD_FAULTS[name](draft)
                elif name == "record":
                    draft.lengths[r] = 18
                else:
                    set_row_fault(draft, r, name)
            put("R", draft.bytes())


def limits():
    numbers = (0, 1, 2, 999_999, 1_000_000, 1_000_001, TOP32)
    for T in numbers:
        for D in sorted({0, 1, max(T, 1) - 1, T, min(T + 1, TOP32), 1_000_000, TOP32}):
            for m in (0, 1, 1_000_000, 1_000_001, TOP32):
                for c in (0, 1, 1_000_000, 1_000_001, TOP32):
                    draft = Draft(1, [[0, m, c, T, D]])
                    put("R", draft.bytes())
    # A number's four bytes are told apart.
    for k in range(17):
        for row in ([0, 0, 0, 0, 0], [0, 1, 1, 70_000, 70_000]):
            data = bytearray(Draft(8, [row]).bytes())
            data[6 + k] = 1
            put("F", data)


def random_sheets():
    for k in range(400):
        put("F" if k % 10 == 0 else "R", good_draft(dice, dice.below(33)).bytes())
    for _ in range(40):
        put("R", good_draft(dice, 32, 8).bytes())
        put("R", good_draft(dice, 0).bytes())
    # One byte altered, a part cut out, or put in.
    for k in range(900):
        data = bytearray(good_draft(dice, dice.below(4 if k % 9 else 33)).bytes())
        at = dice.below(len(data))
        data[at] = dice.one_of([0, 1, 255, data[at] ^ (1 << dice.below(8)), dice.below(256)])
        if dice.chance(10):
            del data[at]
        if dice.chance(10):
            data.insert(at, dice.below(256))
        put("R", data)


def random_bytes():
    for _ in range(300):
        put("R", dice.bytes(dice.below(60)))
    # A good head, and then anything; a good head and good record lengths, and small numbers.
    for k in range(700):
        n = dice.below(4)
        data = bytearray([1, 0, 5 + 18 * n, dice.between(1, 8), n])
        for _ in range(n):
            tame = [dice.one_of([0, 0, 0, 1, 2, 3]) for _ in range(17)]
            data += bytes([17]) + (dice.bytes(17) if k % 4 == 0 else bytes(tame))
        put("R", data)


# Parts shown.


def put_shown(sheet, row, zeros=0):
    put("S", row.to_bytes(8, "big") + sheet, zeros)


def shown_parts():
    for sheet in SHEETS.values():
        for row in [0, 1, 2, 3, 31, 32, 255, 256, 1 << 32, 1 << 63, TOP64, TOP64 - 1] + WRAPPING:
            put_shown(sheet, row)
    put_shown(A, 0, 65_536)
    put_shown(A, 1, 65_536)
    for sheet in (b"", b"\1", A[:4], A[:5], A[:40], b"\2" + A[1:]):
        for row in (0, 1, TOP64):
            put_shown(sheet, row)
    for n in range(33):
        sheet = good_draft(dice, n).bytes()
        for row in (0, n // 2, max(n, 1) - 1, n, n + 1):
            put_shown(sheet, row)
    for _ in range(200):
        n = dice.between(1, 5)
        draft = good_draft(dice, n)
        row = dice.below(n + 1)
        put_shown(draft.bytes(), row)
        put_shown(draft.bytes(), dice.one_of([n, TOP64, 1 << 63, dice.word()] + WRAPPING))
        set_row_fault(draft, dice.below(n), dice.one_of(ROW_FAULTS))
        put_shown(draft.bytes(), row)


# Sets written.


def put_set(kind, room, N, n, rows):
    put(kind, room.to_bytes(2, "big") + bytes([N]) + n.to_bytes(8, "big") + b"".join(map(bytes_of_row, rows)))


def written_sets():
    for sheet in SHEETS.values():
        _, the_set = read(sheet)
        for room in (0, 4, 5, len(sheet) - 1, len(sheet), len(sheet) + 1, len(sheet) + 40):
            put_set("V", room, the_set.N, the_set.n, the_set.rows[: the_set.n])
    for n in range(33):
        N = dice.between(1, 8)
        rows, size = good_rows(dice, N, n), 5 + 18 * n
        past = [anything_row(dice) for _ in range(32 - n)]
        for room in (0, size - 1, size, size + 1):
            put_set("W", room, N, n, rows)
        put_set("V" if n % 8 == 0 else "W", 700, N, n, rows + past)
        put_set("W", 1024, N, n, rows + past)


def written_faults():
    for n in (32, 6, 1):
        for r in range(n):
            for name in ONE_OF_EACH if n > 6 else ROW_FAULTS:
                for room in (0, 1024):
                    draft = high_rows(n)
                    set_row_fault(draft, r, name)
                    put_set("W", room, 8, n, draft.rows)
    places = [(name, r) for r in (0, 1, 2) for name in ONE_OF_EACH + ["processor N", "memory past"]]
    for first in places:
        for second in places:
            draft = high_rows(3)
            set_row_fault(draft, first[1], first[0])
            set_row_fault(draft, second[1], second[0])
            put_set("W", dice.one_of([0, 58, 59, 100]), 8, 3, draft.rows)


def sets_no_reader_makes():
    rows = high_rows(32).rows
    for N in (0, 1, 8, 9, 255):
        for n in (0, 1, 32, 33, 34, 255, 256, 257, 288, 1 << 16, 1 << 32, (1 << 32) + 1, 1 << 63, TOP64):
            for room in (0, 1024):
                put_set("W", room, N, n, rows if dice.chance(30) else rows[:2])
    for _ in range(200):
        n = dice.between(1, 5)
        rows = [dice.one_of([good_row(dice, dice.below(9)), anything_row(dice)]) for _ in range(n)]
        put_set("W", dice.below(120), dice.between(1, 8), n, rows)
    for _ in range(300):
        N, n = dice.between(1, 8), dice.between(1, 8)
        rows = good_rows(dice, N, n)
        if dice.chance(50):
            rows[dice.below(n)] = good_row(dice, dice.below(9))
        put_set("W", dice.below(160), N, n, rows + [anything_row(dice)] * dice.below(3))


def make():
    sheet_examples()
    short_sheets()
    lengths()
    faults_at_every_row()
    pairs_of_faults()
    limits()
    random_sheets()
    random_bytes()
    shown_parts()
    written_sets()
    written_faults()
    sets_no_reader_makes()
    return b"".join(out)


if __name__ == "__main__":
    make_file(make, dice)
