"""The paper's examples, as sets and sheets."""

from sheet import Row, bytes_of, set_with


def sheet_with(N, *rows):
    """The sheet of rows given as (processor, m, c, T, D); nothing is checked."""
    return bytes_of(set_with(N, [Row(*row) for row in rows]))


A = sheet_with(2, (0, 1, 1, 4, 4), (1, 2, 3, 12, 12))
B = sheet_with(1, (0, 1, 1, 4, 4), (0, 1, 1, 8, 8), (0, 1, 1, 16, 16))
C = sheet_with(1, (0, 1, 1, 5, 5), (0, 1, 1, 7, 7), (0, 1, 1, 7, 7))
C6 = sheet_with(1, (0, 1, 1, 5, 5), (0, 1, 1, 7, 7), (0, 1, 1, 7, 6))
J = sheet_with(2, (0, 2, 0, 6, 6), (0, 0, 3, 12, 12), (1, 3, 0, 24, 24))
E1 = sheet_with(1, (0, 2, 2, 3, 3))
E2 = sheet_with(1, (0, 2, 2, 4, 4))
E3 = sheet_with(1, (0, 2, 2, 10, 3))
EMPTY = bytes.fromhex("0100050100")

SHEETS = {"a": A, "b": B, "c": C, "c6": C6, "j": J, "e1": E1, "e2": E2, "e3": E3, "empty": EMPTY}
