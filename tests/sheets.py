#!/usr/bin/env python3
"""Writes what crates/sheets_run reads (stdin) and must print (stdout).

    python3 tests/sheets.py

The files of tests/vectors with their sheets; one file for each sort of damage that the rules document names, with the
sheet that it says; and files at and past the longest length, one of them with the longest sheet that we know.
"""
from pathlib import Path

TESTS = Path(__file__).resolve().parent
CRATE = TESTS.parent / "crates" / "sheets_run"

files = [(p.read_bytes(), p.with_suffix(".sheet").read_text()) for p in sorted((TESTS / "vectors").glob("*.bin"))]


# a file that creates a book with security 0 in the given currency, and then has these bytes
def created(more="", code=0):
    return bytes([1, 0, 33, 0, code]) + bytes([255]) * 31 + bytes.fromhex(more)


NO_BOOK = "X {}\nE 1\n"
EMPTY_BOOK = "X 36\nDAY 0\nE 2\n"

damage = [
    # an empty file; another version; a version with no record after it
    (b"", NO_BOOK.format(0)),
    (bytes([2]), NO_BOOK.format(0)),
    (bytes([0]) + created()[1:], NO_BOOK.format(0)),
    (bytes([1]), NO_BOOK.format(1)),
    # a cut length; no create first; another kind first; a bad currency code; creates of other lengths; a cut create
    (bytes([1, 0]), NO_BOOK.format(1)),
    (bytes([1, 0, 1, 4]), NO_BOOK.format(1)),
    (bytes([1, 0, 1, 8]), NO_BOOK.format(1)),
    (created(code=4), NO_BOOK.format(1)),
    (bytes([1, 0, 32, 0]) + bytes([255]) * 31, NO_BOOK.format(1)),
    (bytes([1, 0, 34, 0]) + bytes([255]) * 33, NO_BOOK.format(1)),
    (created()[:30], NO_BOOK.format(1)),
    # create again; another kind; a record of length 0; a stray byte; a cut record; a length past the end
    (created() + created()[1:], EMPTY_BOOK),
    (created("000108"), EMPTY_BOOK),
    (created("0000"), EMPTY_BOOK),
    (created("00"), EMPTY_BOOK),
    (created("00030300"), EMPTY_BOOK),
    (created("ffff04"), EMPTY_BOOK),
    # another length for its kind
    (created("000d01" + "00" * 12), EMPTY_BOOK),
    (created("000f01" + "00" * 14), EMPTY_BOOK),
    (created("000d02" + "00" * 12), EMPTY_BOOK),
    (created("000f02" + "00" * 14), EMPTY_BOOK),
    (created("00020300"), EMPTY_BOOK),
    (created("000403000000"), EMPTY_BOOK),
    (created("00020400"), EMPTY_BOOK),
    (created("000a05" + "00" * 9), EMPTY_BOOK),
    (created("000c05" + "00" * 11), EMPTY_BOOK),
    (created("000a06" + "00" * 9), EMPTY_BOOK),
    (created("000c06" + "00" * 11), EMPTY_BOOK),
    (created("000107"), EMPTY_BOOK),
    (created("0003070000"), EMPTY_BOOK),
    # the records before a 19 stand, those behind it are not read; a refused call does not stop the file
    (created("000104" "000109" "000104"), "X 39\nDAY 1\nE 2\n"),
    (created("0003030007" "000104" "ff"), "R 1 8\nX 44\nDAY 1\nE 3\n"),
]

lengths = [
    (bytes(65_536), "R 0 18\nE 1\n"),
    # rolls to the longest length: 36 bytes and 21,833 rolls of 3
    (created("000104" * 21_833), "DAY 21833\nE 1\n"),
]


# the longest sheet that we know: on two days 256 trades, each with an account's first net in a security on either side,
# fill the position table; behind one trade more every roll is refused with 10
ROLL = "000104"
SHARES, PRICE = 999_983, 9_999_991


def enter(trade):
    number, buyer, security = trade + 1, trade % 32 * 2, trade // 32
    return f"000e01{number:04x}{buyer:02x}{buyer + 1:02x}{security:02x}{SHARES:08x}{PRICE:08x}"


full = "01002100" + "00" * 32 + ("".join(enter(t) for t in range(256)) + ROLL) * 2 + enter(0)
refused = (65_535 - len(full) // 2) // 3
lines = [f"R {516 + i} 10" for i in range(refused)] + ["DAY 2"]
for due in (2, 3):
    for account in range(64):
        sign = "-" if account % 2 else ""
        for security in range(8):
            number = due * 2_048 + account * 32 + security
            lines.append(f"P {number} {account} {security} {sign}{SHARES} {sign}{SHARES * PRICE}")
lines.append(f"E {len(lines)}")
lengths.append((bytes.fromhex(full + ROLL * refused), "\n".join(lines) + "\n"))

container, expected = b"", ""
for file, sheet in files + damage + lengths:
    container += len(file).to_bytes(4, "big") + file
    expected += sheet
(CRATE / "stdin").write_bytes(container)
(CRATE / "stdout").write_text(expected)
print(len(files), "vectors,", len(damage), "damaged files,", len(lengths), "long ones,", len(container), "bytes")
