"""The clerk's question: what do the two accounts of one agent lose if their positions are priced now, and does the gain of the one
cover the other? Enters the trades of two days in a book, asks for the marks of each account, and prints each position's mark
beside the figures that the book answers. Uses tests/embed.py (see there for the library that it needs).

    python3 tests/clerk.py
"""
import pathlib
import tempfile

import embed

TARN, KELP, OSPR = range(3)
NAMES, CURRENCY = ["TARN", "KELP", "OSPR"], [0, 0, 1]
# prices in mils; KELP has traded today
INTRADAY, CLOSING = [0, 40_150, 0] + [0] * 29, [8_880, 39_700, 114_600] + [0] * 29
# currency 1 is worth 7.8 of the base, with a haircut of 1.5 percent
RATES, HAIRCUTS = [1_000_000, 7_800_000, 1_000_000, 1_000_000], [0, 150, 0, 0]
OTHER = 20


def traded(path, first, second):
    """The book of two days' trades; the agent's accounts are `first` and `second`."""
    embed.create(path, bytes(CURRENCY + [255] * 29))
    days = [
        [(first, OTHER, TARN, 9_000, 8_750), (OTHER, second, KELP, 5_500, 39_800)],
        [(OTHER, first, TARN, 15_000, 8_900), (first, OTHER, OSPR, 2_000, 114_250), (second, OTHER, OSPR, 1_800, 114_500)],
    ]
    for day in days:
        for number, trade in enumerate(day, 1):
            embed.call("enter", path, number, *trade)
        embed.call("roll", path)


def positions(path):
    """Account, security, shares and money of each open position (docs/BOOK.md has the layout)."""
    data = path.read_bytes()
    for at in range(36, 36 + int.from_bytes(data[34:36], "big") * 20, 20):
        number = int.from_bytes(data[at : at + 4], "big")
        shares, money = (int.from_bytes(data[at + n : at + n + 8], "big", signed=True) for n in (4, 12))
        yield number // 32 % 64, number % 32, shares, money


def mils(n):
    return f"{'-' if n < 0 else ''}{abs(n) // 1000:,}.{abs(n) % 1000:03}"


def statement(path, account):
    due, sums = embed.marks(path, account, INTRADAY, CLOSING, RATES, HAIRCUTS)
    print(f"Account {account}")
    for whose, security, shares, money in positions(path):
        if whose == account:
            price, table = (INTRADAY[security], "intraday") if INTRADAY[security] else (CLOSING[security], "closing")
            mark = shares * price - money
            print(f"  {NAMES[security]} {shares:+,} at {mils(price)} ({table}): mark {mils(mark)} in currency {CURRENCY[security]}")
    print(f"  sums {mils(sums[0])} and {mils(sums[1])}: due {mils(due)}")


def main():
    with tempfile.TemporaryDirectory() as folder:
        apart, pooled = pathlib.Path(folder, "apart"), pathlib.Path(folder, "pooled")
        traded(apart, 10, 11)
        statement(apart, 10)
        statement(apart, 11)
        traded(pooled, 10, 10)
        print(f"Pooled in one account: due {mils(embed.marks(pooled, 10, INTRADAY, CLOSING, RATES, HAIRCUTS)[0])}")


main()
