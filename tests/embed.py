"""The book inside a script: it is kept in a file, and each call is made through ctypes on the bytes of that file. As a program it
plays the whole example of the rules document so, compares the file with the book that the example's call file leaves, tries
files that are no book, and prints the sheet. A difference is said, and the exit status is 1. As a module (import embed) it is a
binding to copy.

    tools/archive wickdamson
    gcc -shared -o target/libwickdamson.so -Wl,--whole-archive target/staticlib/libwickdamson.a -Wl,--no-whole-archive
    python3 tests/embed.py

A kept book is never destroyed: a file of another length is an error and is left alone, and a new book goes to a new file, which
takes the old one's place when it is safe on the disk. One program at a time: nothing locks the file.
"""
import ctypes
import os
import pathlib
import sys
import tempfile

here = pathlib.Path(__file__).resolve().parent.parent
wick = ctypes.CDLL(str(here / "target/libwickdamson.so"))


class Whole:
    """A number that is handed over as it is, or not at all: ctypes alone would cut 2**32 + 5 to 5."""

    @classmethod
    def from_param(cls, value):
        number = cls(value)
        if number.value != value:
            raise OverflowError(f"{value} does not fit into {cls.__name__}")
        return number


class u32(Whole, ctypes.c_uint32):
    pass


class u64(Whole, ctypes.c_uint64):
    pass


# What each function takes behind the book, as include/wickdamson.h has it. A lent buffer is a pointer and its length.
P, N = ctypes.c_char_p, ctypes.c_size_t
FIGURE = ctypes.POINTER(ctypes.c_int64)
TAKES = {
    "create": [P, N],
    "enter": [u32] * 6,
    "amend": [u32] * 6,
    "exclude": [u32],
    "deposit": [u32, u32, u64],
    "withdraw": [u32, u32, u64],
    "roll": [],
    "run": [u32, ctypes.POINTER(ctypes.c_uint64)],
    "sound": [],
    "marks": [u32, P, N, P, N, ctypes.c_void_p, N, ctypes.c_void_p, N] + [FIGURE] * 5,
    "record": [P, N, u32, ctypes.POINTER(ctypes.c_uint64), ctypes.POINTER(ctypes.c_uint32)],
    "play": [P, N, P, N, ctypes.POINTER(N)],
    "sheet": [P, N, P, N, ctypes.POINTER(N)],
}
for name, takes in TAKES.items():
    function = getattr(wick, "wick_" + name)
    function.argtypes, function.restype = [P, N] + takes, ctypes.c_uint8
wick.wick_version.restype, wick.wick_version.argtypes = ctypes.c_uint32, []
wick.wick_book_bytes.restype, wick.wick_book_bytes.argtypes = N, []
BOOK, SHEET, AFTER_CREATE = wick.wick_book_bytes(), 295620, 36
if wick.wick_version() != 1:
    raise ImportError(f"the library has version {wick.wick_version()} of the interface, and not 1")


class Refused(Exception):
    """A call of the book was refused; nothing was altered."""


def asked(name, book, *arguments):
    """One call on a book in memory."""
    refusal = getattr(wick, "wick_" + name)(book, len(book), *arguments)
    if refusal:
        raise Refused(f"{name}: refused by {refusal}")


def read(path):
    """The book that the file has. A file that has none is an error, and is left alone."""
    data = path.read_bytes()
    if len(data) != BOOK:
        raise ValueError(f"{path} has {len(data)} bytes and is no book, which has {BOOK}: it is left alone")
    book = ctypes.create_string_buffer(data, BOOK)
    if not wick.wick_sound(book, BOOK):
        raise ValueError(f"{path} is not a sound book: it is left alone")
    return book


def keep(path, book):
    """Puts the book in the file's place: first in a new file beside it, synced, then by its name."""
    new = path.with_name(path.name + ".new")
    with open(new, "wb") as file:
        file.write(book.raw)
        file.flush()
        os.fsync(file.fileno())
    os.replace(new, path)
    folder = os.open(path.resolve().parent, os.O_RDONLY)
    try:
        os.fsync(folder)
    finally:
        os.close(folder)


def create(path, codes):
    """A new book in a new file, with the currency code of each of the 32 securities (255: unlisted). A file that is there is left alone."""
    if path.exists():
        raise FileExistsError(f"{path} is there already: it is left alone")
    book = ctypes.create_string_buffer(BOOK)
    asked("create", book, codes, len(codes))
    keep(path, book)


def call(name, path, *arguments):
    """One call on the book that the file has. A refused call leaves the file as it was."""
    book = read(path)
    asked(name, book, *arguments)
    keep(path, book)


def marks(path, account, intraday, closing, rates, haircuts):
    """The due of an account, and its sum of marks in each currency. Tables are lists of 32 prices, rates and haircuts of four."""
    book, figures = read(path), [ctypes.c_int64() for _ in range(5)]
    tables = [b"".join(price.to_bytes(4, "big") for price in table) for table in (intraday, closing)]
    numbers = [(ctypes.c_uint32 * 4)(*(u32.from_param(n).value for n in four)) for four in (rates, haircuts)]
    lent = [x for buffer in tables for x in (buffer, len(buffer))] + [x for four in numbers for x in (four, len(four))]
    asked("marks", book, account, *lent, *(ctypes.byref(figure) for figure in figures))
    return figures[0].value, [figure.value for figure in figures[1:]]


def example(path):
    """The whole example, call by call; the shares that the run moved."""
    moved = ctypes.c_uint64()
    create(path, bytes([0] + [255] * 31))
    call("enter", path, 1, 1, 2, 0, 1000, 10500)
    call("enter", path, 2, 2, 3, 0, 400, 10600)
    call("deposit", path, 2, 0, 250)
    call("deposit", path, 3, 0, 400)
    call("roll", path)
    call("roll", path)
    call("run", path, 0, ctypes.byref(moved))
    return moved.value


def sheet(file):
    """The sheet of a call file, and the book that it leaves (None: it makes none)."""
    book, buffer, size = ctypes.create_string_buffer(BOOK), ctypes.create_string_buffer(SHEET), N()
    asked("sheet", book, file, len(file), buffer, SHEET, ctypes.byref(size))
    return buffer.raw[: size.value].decode(), book


def play_on(path, file):
    """The records of a call file behind its create, played on the book that the file at the path has; the refusals, by record. The
    create must list what the book lists. A file that cannot be read to its end is an error, and the book is left as it was. Nothing
    tells a file that was played before: its calls would be made once more."""
    book, place, refusals = read(path), AFTER_CREATE, {}
    if file[:4] != b"\x01\x00\x21\x00" or file[4:AFTER_CREATE] != book.raw[2:34]:
        raise ValueError("the file does not begin with the create of this book: nothing was played")
    figure, following, index = ctypes.c_uint64(), ctypes.c_uint32(), 1
    while place < len(file):
        refusal = wick.wick_record(book, BOOK, file, len(file), place, ctypes.byref(figure), ctypes.byref(following))
        if following.value == 0:
            raise Refused(f"the record at place {place} is refused by {refusal}: nothing was played")
        if refusal:
            refusals[index] = refusal
        place, index = following.value, index + 1
    keep(path, book)
    return refusals


def fails(error, what, *arguments):
    """Whether the call fails so."""
    try:
        what(*arguments)
    except error:
        return True
    return False


def left_alone(folder, good):
    """Files that are no book, and numbers that do not fit: each is an error, and the file stays as it was."""
    for name, data in ("cut", good[:23500]), ("empty", b""), ("longer", good + b"\0"), ("unsound", b"\xff" * BOOK):
        path = pathlib.Path(folder, name)
        path.write_bytes(data)
        if not fails(ValueError, call, "deposit", path, 2, 0, 250) or path.read_bytes() != data:
            sys.exit(f"embed: a file that is {name} was not left alone")
        if not fails(FileExistsError, create, path, bytes(32)) or path.read_bytes() != data:
            sys.exit(f"embed: a book was created over a file that is {name}")
    missing = pathlib.Path(folder, "missing")
    if not fails(FileNotFoundError, call, "deposit", missing, 2, 0, 250) or missing.exists():
        sys.exit("embed: a book was made where none is")
    kept = pathlib.Path(folder, "kept")
    kept.write_bytes(good)
    cut = ctypes.ArgumentError
    for error, account, quantity in (Refused, 258, 1), (cut, 2**32 + 2, 1), (cut, 2, 2**64 + 5), (cut, -1, 1):
        if not fails(error, call, "deposit", kept, account, 0, quantity) or kept.read_bytes() != good:
            sys.exit(f"embed: a deposit of {quantity} to account {account} was made")


def going_on(folder, file, whole):
    """The example in two files, the second on the kept book of the first, leaves the book of the whole."""
    path = pathlib.Path(folder, "in two")
    keep(path, sheet(file[:68])[1])
    first = path.read_bytes()
    for damaged in file[:36] + file[68:-1], b"\x01\x00\x21\x00" + bytes(32) + file[68:]:
        if not fails((Refused, ValueError), play_on, path, damaged) or path.read_bytes() != first:
            sys.exit("embed: a damaged file, or another book's, was played on a kept book")
    if play_on(path, file[:36] + file[68:]) or path.read_bytes() != whole:
        sys.exit("embed: the example in two files leaves another book")
    if play_on(path, file[:36] + bytes([0, 2, 7, 9])) != {1: 3}:
        sys.exit("embed: the run of a security that is not listed was not refused")


def main():
    with tempfile.TemporaryDirectory() as folder:
        by_calls = pathlib.Path(folder, "calls")
        moved = example(by_calls)
        text, by_file = sheet((here / "tests/vectors/v01_example.bin").read_bytes())
        print(text, end="")
        if moved != 650 or by_calls.read_bytes() != by_file.raw:
            sys.exit("embed: the calls and the file leave different books")
        left_alone(folder, by_file.raw)
        going_on(folder, (here / "tests/vectors/v01_example.bin").read_bytes(), by_file.raw)
    print("embed: all as it should be", file=sys.stderr)


if __name__ == "__main__":
    main()
