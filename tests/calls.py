#!/usr/bin/env python3
"""Writes the script that crates/calls_run plays (stdin) and what it must print (stdout).

    python3 tests/calls.py

Every expected answer stands below beside the call that it answers; nothing of it comes from the program. For each
sentence of "A sound book" a book is made that breaks it: `broken` here tests the sentences one by one, and the script
is written only if exactly the named one is broken.
"""
import struct
from pathlib import Path

TESTS = Path(__file__).resolve().parent
VECTORS = TESTS / "vectors"
CRATE = TESTS.parent / "crates" / "calls_run"
BOOK = 42278
RECORDS, POSITIONS, HOLDINGS, CHARGES, ENTRIES, TRADES = 34, 36, 20516, 36900, 38948, 38950

script, expected = b"", ""


def command(kind, fields=b""):
    global script
    assert len(fields) <= 15
    script += bytes([kind]) + fields.ljust(15, b"\0")


def say(text):
    global expected
    expected += text
    for i in range(0, len(text), 14):
        part = text[i : i + 14].encode()
        command(11, bytes([len(part)]) + part)


# ── calls, each with its answer ──


def answered(kind, fields, answer):
    global expected
    command(kind, fields)
    expected += f" {answer}"


def create(answer=0):
    answered(0, b"", answer)


def trade(number, buyer=1, seller=2, security=0, quantity=10, price=100):
    return struct.pack(">HBBBII", number, buyer, seller, security, quantity, price)


def enter(answer, *fields, **named):
    answered(1, trade(*fields, **named), answer)


def amend(answer, *fields, **named):
    answered(2, trade(*fields, **named), answer)


def exclude(answer, number):
    answered(3, struct.pack(">H", number), answer)


def deposit(answer, account, security, quantity):
    answered(5, struct.pack(">BBQ", account, security, quantity), answer)


def withdraw(answer, account, security, quantity):
    answered(6, struct.pack(">BBQ", account, security, quantity), answer)


def roll(answer):
    answered(4, b"", answer)


def run(answer, security, moved=None):
    answered(7, bytes([security]), answer if moved is None else f"{answer} {moved}")


# ── the book as bytes, kept beside the script so that it can be looked at here ──

book = bytearray(BOOK)


def write(at, data):
    for i in range(0, len(data), 12):
        part = data[i : i + 12]
        if book[at + i : at + i + len(part)] == part:
            continue
        book[at + i : at + i + len(part)] = part
        command(8, struct.pack(">HB", at + i, len(part)) + part)


def remember():
    command(9)


def kept():
    global expected
    command(10)
    expected += " kept"


def empty():
    global book
    book = bytearray(BOOK)
    book[2:34] = bytes([0, 1, 2, 3]) + bytes([255]) * 28
    command(14)


def day(n):
    write(0, struct.pack(">H", n))


def position(row, due, account, security, quantity, money):
    write(POSITIONS + 20 * row, struct.pack(">Iqq", due * 2048 + account * 32 + security, quantity, money))


def records(n):
    write(RECORDS, struct.pack(">H", n))


def holding(account, security, quantity):
    write(HOLDINGS + 8 * (account * 32 + security), struct.pack(">Q", quantity))


def charge(account, currency, money):
    write(CHARGES + 8 * (account * 4 + currency), struct.pack(">q", money))


def listed(row, *fields, **named):
    write(TRADES + 13 * row, trade(*fields, **named))


def entries(n):
    write(ENTRIES, struct.pack(">H", n))


# a number that stands in the book now: what it must be comes from elsewhere
def shown(at, count, value):
    global expected
    command(12, struct.pack(">HB", at, count))
    expected += f" {value}"


# all records and charges that stand in the book now, by number, and by account and currency
def standing(records, charges):
    global expected
    command(13)
    for number, shares, money in records:
        expected += f" | {number} {shares} {money}"
    for account, currency, money in charges:
        expected += f" / {account * 4 + currency} {money}"


# ── the sentences of "A sound book", one by one ──


def broken(b):
    day, count = struct.unpack_from(">H", b, 0)[0], struct.unpack_from(">H", b, RECORDS)[0]
    codes = b[2:34]
    rows = [struct.unpack_from(">Iqq", b, POSITIONS + 20 * i) for i in range(1024)]
    ps = [(n // 2048, n // 32 % 64, n % 32, q, m) for n, q, m in rows[:count]]
    due = [p for p in ps if p[0] <= day]
    held = struct.unpack_from(">2048Q", b, HOLDINGS)
    charges = struct.unpack_from(">256q", b, CHARGES)
    n = struct.unpack_from(">H", b, ENTRIES)[0]
    ts = [struct.unpack_from(">HBBBII", b, TRADES + 13 * i) for i in range(256)]
    net = lambda l, s: sum(p[3] for p in l if p[2] == s)
    sign = {}
    valid = lambda t: t[1] < 64 and t[2] < 64 and t[3] < 32 and codes[t[3]] != 255 and 1 <= t[4] <= 10**6 and 1 <= t[5] <= 9999999 and t[1] != t[2]
    stake = lambda a, c: abs(charges[a * 4 + c]) + sum(abs(p[4]) for p in ps if p[1] == a and codes[p[2]] == c)
    sentences = {
        "day": day <= 60000,
        "currency": all(c < 4 or c == 255 for c in codes),
        "count": count <= 1024,
        "ascent": all(rows[i][0] < rows[i + 1][0] for i in range(min(count, 1024) - 1)),
        "unused room": all(r == (0, 0, 0) for r in rows[count:]),
        "quantity": all(abs(p[3]) <= 256000000 for p in ps),
        "money": all(abs(p[4]) <= 2560000000000000 for p in ps),
        "not both zero": all(p[3] or p[4] for p in ps),
        "due day": all(p[0] <= day + 1 for p in ps),
        "due nonzero": all(p[3] for p in due),
        "one sign": all(sign.setdefault(p[1:3], p[3] < 0) == (p[3] < 0) for p in due),
        "total due": all(net(due, s) == 0 for s in range(32)),
        "total next day": all(net([p for p in ps if p[0] == day + 1], s) == 0 for s in range(32)),
        "holding": all(h <= 10**12 for h in held),
        "total held": all(sum(held[s::32]) <= 10**12 for s in range(32)),
        "unlisted record": all(codes[p[2]] != 255 for p in ps),
        "unlisted held": all(h == 0 or codes[i % 32] != 255 for i, h in enumerate(held)),
        "at stake": all(stake(a, c) <= 2621440000000000000 for a in range(64) for c in range(4)),
        "trade count": n <= 256,
        "distinct": len({t[0] for t in ts[:n]}) == len(ts[:n]),
        "number zero": all(t[0] for t in ts[:n]),
        "fields": all(valid(t) or t[1:] == (0, 0, 0, 0, 0) for t in ts[:n]),
        "unused trades": all(t == (0, 0, 0, 0, 0, 0) for t in ts[n:]),
    }
    return [name for name, holds in sentences.items() if not holds]


# every call answers 1 to this book, and keeps it
def refused(sentence, *others):
    assert broken(book) == [sentence, *others], (sentence, broken(book))
    say(sentence + ":")
    remember()
    enter(1, 9)
    amend(1, 1)
    exclude(1, 1)
    deposit(1, 1, 0, 1)
    withdraw(1, 2, 0, 1)
    roll(1)
    run(1, 0)
    kept()
    say("\n")


# the sound book that the cases below begin from
def base():
    empty()
    day(10)
    records(7)
    position(0, 9, 1, 0, 5, 50)
    position(1, 9, 2, 0, -5, -50)
    position(2, 10, 1, 0, 3, 30)
    position(3, 10, 3, 0, -3, -30)
    position(4, 11, 4, 1, 7, 70)
    position(5, 11, 5, 1, -7, -70)
    position(6, 11, 6, 2, 0, 9)
    holding(2, 0, 100)
    charge(1, 0, 12)
    entries(2)
    listed(0, 1)
    listed(1, 2, 0, 0, 0, 0, 0)
    assert broken(book) == []


# ── 1. trades: room, quantities, prices ──

say("256 trades:")
create()
for i in range(1, 257):
    enter(0, i)
say("\n257th:")
enter(9, 257)
exclude(0, 256)
enter(9, 257)
say("\n257th, number used or none:")
enter(7, 256)
enter(7, 0)
say("\nquantity 0, 1, 1000000, 1000001:")
create()
enter(4, 1, quantity=0)
enter(0, 1, quantity=1)
enter(0, 2, quantity=1_000_000)
enter(4, 3, quantity=1_000_001)
amend(4, 1, quantity=0)
amend(0, 1, quantity=1_000_000)
amend(4, 1, quantity=1_000_001)
say("\nprice 0, 1, 9999999, 10000000:")
enter(5, 3, price=0)
enter(0, 3, price=1)
enter(0, 4, price=9_999_999)
enter(5, 5, price=10_000_000)
amend(5, 3, price=0)
amend(0, 3, price=9_999_999)
amend(5, 3, price=10_000_000)
say("\naccounts, security, parties:")
enter(2, 5, buyer=64)
enter(2, 5, seller=64)
enter(3, 5, security=4)
enter(3, 5, security=32)
enter(6, 5, buyer=2)
say("\nexcluded, amended, used:")
exclude(0, 1)
exclude(8, 1)
amend(8, 1)
enter(7, 1)
exclude(8, 77)
amend(8, 77)
say("\na high byte of quantity, price and number:")
create()
enter(4, 1, quantity=0x01000001)
enter(5, 1, price=0x01000001)
enter(0, 0x0105, quantity=3)
enter(0, 0x0005, quantity=4)
amend(8, 0x0205)
exclude(8, 0x0205)
exclude(0, 0x0105)
exclude(8, 0x0105)
roll(0)
standing([(4128, 4, 400), (4160, -4, -400)], [])
say("\nplaces in the list: entered, amended, excluded:")
create()
enter(0, 7, quantity=5)
enter(0, 3, quantity=6)
enter(0, 9, quantity=7)
amend(0, 3, 4, 5, 1, 8, 13)
exclude(0, 7)
for row, number, shares in [(0, 7, 0), (1, 3, 8), (2, 9, 7)]:
    shown(TRADES + 13 * row, 2, number)
    shown(TRADES + 13 * row + 5, 4, shares)
say("\n")

# ── 2. holdings ──

say("10^12 and one more:")
create()
deposit(0, 0, 0, 10**12)
deposit(12, 1, 0, 1)
deposit(4, 0, 1, 10**12 + 1)
withdraw(4, 0, 0, 10**12 + 1)
withdraw(0, 0, 0, 10**12)
withdraw(11, 0, 0, 1)
deposit(0, 63, 0, 10**12 - 1)
deposit(0, 1, 0, 1)
deposit(12, 2, 0, 1)
say("\nnone, most, account, security:")
deposit(4, 0, 0, 0)
withdraw(4, 0, 0, 0)
deposit(4, 0, 0, 2**64 - 1)
withdraw(4, 0, 0, 2**64 - 1)
deposit(2, 64, 0, 1)
withdraw(2, 255, 0, 1)
deposit(3, 0, 32, 1)
withdraw(3, 0, 4, 1)
say("\n10^12 of each security, a high byte:")
create()
deposit(0, 0, 0, 10**12)
deposit(0, 1, 1, 1)
deposit(0, 2, 1, 10**12 - 1)
deposit(12, 3, 1, 1)
deposit(4, 0, 2, 2**56 + 5)
withdraw(4, 0, 0, 2**56 + 5)
say("\n")

# ── 3. books that break one sentence ──

say("sound:")
base()
remember()
exclude(8, 3)
kept()
say("\n")

empty()
day(60_001)
refused("day")

base()
write(2 + 7, bytes([4]))
refused("currency")

# 16 due days, 64 accounts, each with one share to receive or one to deliver
empty()
day(15)
records(1025)
for i in range(1024):
    position(i, i // 64, i % 64, 0, 1 if i % 2 == 0 else -1, 0)
refused("count")

base()
position(0, 9, 2, 0, -5, -50)
position(1, 9, 1, 0, 5, 50)
refused("ascent")

base()
position(1, 9, 1, 0, 5, 50)
position(3, 10, 3, 0, -13, -30)
refused("ascent")

base()
write(POSITIONS + 20 * 1023 + 19, b"\1")
refused("unused room")

base()
position(0, 9, 1, 0, 256_000_001, 50)
position(1, 9, 2, 0, -256_000_000, -50)
position(3, 10, 3, 0, -4, -30)
refused("quantity")

base()
position(0, 9, 1, 0, 256_000_000, 50)
position(1, 9, 2, 0, -256_000_001, -50)
position(2, 10, 1, 0, 4, 30)
refused("quantity")

base()
position(0, 9, 1, 0, 5, 2_560_000_000_000_001)
refused("money")

base()
position(0, 9, 1, 0, 5, -2_560_000_000_000_001)
refused("money")

base()
position(6, 11, 6, 2, 0, 0)
refused("not both zero")

base()
position(6, 12, 6, 2, 0, 9)
refused("due day")

base()
position(4, 10, 4, 1, 0, 70)
position(5, 11, 5, 1, 0, -70)
refused("due nonzero")

base()
position(2, 10, 1, 0, -3, 30)
position(3, 10, 3, 0, 3, -30)
refused("one sign")

base()
position(0, 9, 1, 0, 6, 50)
refused("total due")

base()
position(4, 11, 4, 1, 8, 70)
refused("total next day")

# (a holding above 10^12 takes the total above it too)
base()
holding(2, 0, 10**12 + 1)
refused("holding", "total held")

base()
holding(2, 0, 10**12)
holding(3, 0, 1)
refused("total held")

base()
position(6, 11, 6, 9, 0, 9)
refused("unlisted record")

base()
holding(2, 9, 1)
refused("unlisted held")

base()
charge(1, 0, 2_621_440_000_000_000_000 - 79)
refused("at stake")

base()
charge(1, 0, -2_621_440_000_000_000_000 + 79)
refused("at stake")

base()
entries(257)
for i in range(256):
    listed(i, i + 1)
refused("trade count")

base()
listed(1, 1, 0, 0, 0, 0, 0)
refused("distinct")

base()
listed(0, 0)
refused("number zero")

for fault in [
    dict(buyer=64),
    dict(seller=64),
    dict(security=32),
    dict(security=4),
    dict(quantity=1_000_001),
    dict(price=0),
    dict(price=10_000_000),
    dict(buyer=2),
]:
    base()
    listed(0, 1, **fault)
    refused("fields")

# (of an excluded trade: a price left)
base()
listed(1, 2, 0, 0, 0, 0, 1)
refused("fields")

base()
write(TRADES + 13 * 255 + 12, b"\1")
refused("unused trades")

# at the bounds the same book is sound
say("at the bounds:")
base()
charge(1, 0, 2_621_440_000_000_000_000 - 80)
holding(2, 0, 10**12)
position(0, 9, 1, 0, 256_000_000, 50)
position(1, 9, 2, 0, -256_000_000, -2_560_000_000_000_000)
assert broken(book) == []
exclude(8, 3)
say("\n")

# account 4 has money open in currency 1, other accounts have some in currency 0
say("at stake, each account and currency:")
base()
charge(4, 0, 2_621_440_000_000_000_000)
assert broken(book) == []
exclude(8, 3)
say("\n")

# ── 4. rolls: 14, 10, 10 before 14 ──


# a table with one record for each account on each of 16 days, but for the last few
def full(records_in_use, today):
    empty()
    day(today)
    records(records_in_use)
    for i in range(records_in_use):
        position(i, i // 64, i % 64, 0, 1 if i % 2 == 0 else -1, 0)
    assert broken(book) == []


say("day 59999, 60000:")
empty()
day(59_999)
roll(0)
roll(14)
say("\n1022 records and 2 nets, 2 more:")
full(1022, 15)
enter(0, 1)
enter(0, 2, buyer=3, seller=4, security=1)
remember()
roll(10)
kept()
exclude(0, 2)
roll(0)
shown(RECORDS, 2, 1024)
say("\n10 before 14:")
full(1024, 60_000)
enter(0, 1)
roll(10)
exclude(0, 1)
roll(14)
say("\n")

# ── 5. runs: what is moved ──

say("partly delivered, again, nothing left to give:")
empty()
enter(0, 1, 1, 2, 0, 100, 10)
roll(0)
roll(0)
run(0, 0, 0)
deposit(0, 2, 0, 30)
run(0, 0, 30)
run(0, 0, 0)
deposit(0, 2, 0, 100)
run(0, 0, 70)
shown(RECORDS, 2, 0)
shown(HOLDINGS + 8 * (2 * 32), 8, 30)
shown(HOLDINGS + 8 * (1 * 32), 8, 100)
say("\ntwo records of an account share its holding:")
empty()
enter(0, 1, 1, 2, 0, 10, 10)
roll(0)
enter(0, 1, 3, 2, 0, 10, 20)
roll(0)
roll(0)
deposit(0, 2, 0, 15)
run(0, 0, 15)
shown(RECORDS, 2, 2)
shown(POSITIONS + 4, 8, -5)
shown(POSITIONS + 24, 8, 5)
say("\na receiver filled by two givers, a giver serving two receivers:")
empty()
enter(0, 1, 1, 2, 0, 10, 10)
enter(0, 2, 1, 3, 0, 10, 10)
enter(0, 3, 4, 3, 0, 5, 10)
roll(0)
roll(0)
deposit(0, 2, 0, 10)
deposit(0, 3, 0, 12)
run(0, 0, 22)
shown(RECORDS, 2, 2)
shown(POSITIONS + 4, 8, -3)
shown(POSITIONS + 24, 8, 3)
say("\nrecords of another security, and those due tomorrow:")
empty()
enter(0, 1, 1, 2, 0, 10, 100)
enter(0, 2, 1, 2, 1, 5, 200)
roll(0)
enter(0, 1, 3, 2, 0, 4, 101)
roll(0)
deposit(0, 2, 0, 20)
deposit(0, 2, 1, 20)
run(0, 0, 10)
standing([(4129, 5, 1000), (4161, -5, -1000), (6208, -4, -404), (6240, 4, 404)], [(1, 0, 1000), (2, 0, -1000)])
run(0, 1, 5)
standing([(6208, -4, -404), (6240, 4, 404)], [(1, 0, 1000), (1, 1, 1000), (2, 0, -1000), (2, 1, -1000)])
say("\n3 shares for 1001, one by one:")
empty()
enter(0, 1, 1, 2, 0, 4, 300)
enter(0, 2, 3, 1, 0, 1, 199)
roll(0)
roll(0)
for left, paid in [(668, 333), (334, 667)]:
    deposit(0, 2, 0, 1)
    run(0, 0, 1)
    shown(POSITIONS + 12, 8, left)
    shown(CHARGES + 8 * 4, 8, paid)
deposit(0, 2, 0, 1)
run(0, 0, 1)
standing([(4160, -1, -300), (4192, 1, 199)], [(1, 0, 1001), (2, 0, -900)])
say("\nother securities, unlisted, above 31:")
run(0, 1, 0)
run(3, 4)
run(3, 32)
say("\n")

# ── 6. the vectors: each file's calls, one by one, and what its sheet says of the book ──


def calls_of(file):
    at = 1
    while at < len(file):
        length = int.from_bytes(file[at : at + 2], "big")
        yield file[at + 2], file[at + 3 : at + 2 + length]
        at += 2 + length


def vector(path):
    global expected
    sheet = [line.split() for line in path.with_suffix(".sheet").read_text().splitlines()]
    refusals = {int(w[1]): int(w[2]) for w in sheet if w[0] == "R"}
    say(path.stem + ":")
    for index, (kind, fields) in enumerate(calls_of(path.read_bytes())):
        if kind == 0:
            empty()
            write(2, fields)
        elif kind == 7:
            command(7, fields)
            moved_of(path.stem, index, refusals)
        else:
            answered(kind, fields, refusals.get(index, 0))
    say("\n day:")
    shown(0, 2, next(w[1] for w in sheet if w[0] == "DAY"))
    command(13)
    for w in sheet:
        if w[0] == "P":
            expected += f" | {w[1]} {w[4]} {w[5]}"
    for w in sheet:
        if w[0] == "C":
            expected += f" / {int(w[1]) * 4 + int(w[2])} {w[3]}"
    say("\n")


# the shares that the runs of the vectors move, by the source documents
MOVED = {
    ("v01_example", 7): 650,
    ("v07_net_money", 9): 4000,
    ("v07_net_money", 10): 5000,
    ("v10b_T3_after_run", 8): 3000,
    ("v10c_T4", 8): 3000,
}


def moved_of(name, index, refusals):
    global expected
    expected += f" {refusals[index]}" if index in refusals else f" 0 {MOVED[name, index]}"


# (not `heavy`: its 20,000 records are for the whole file as one call, and a script has at most 8,192 commands)
for path in sorted(VECTORS.glob("*.bin")):
    if path.stem != "heavy":
        vector(path)
assert len(script) // 16 <= 8192

(CRATE / "stdin").write_bytes(script)
(CRATE / "stdout").write_text(expected)
print(len(script) // 16, "commands,", len(script), "bytes")
