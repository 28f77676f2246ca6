#!/usr/bin/env python3
"""Makes the vectors of the program numbers_run: its table (src/vectors.rt) and the output it must have (stdout).

Parts and conversions of document 01, computed with Python's whole numbers, which have no bound. The first rows of each table
are the extreme ones that the house keeps; the others are drawn with a fixed seed, so that this script always writes the same files.
Run it from the repository's root: python3 tests/numbers.py
"""
import random

HOME = "crates/numbers_run"
MOST_SHARES, MOST_MILS = 256_000_000, 2_560_000_000_000_000
LIMIT, TOP_RATE = 9 * 10**18, 100_000_000

PARTS = [
    (1000, 3, 1), (1000, 3, 2), (1000, 3, 3), (-1000, 3, 1), (6260000, 600, 250), (3675000, 350, 200), (-3651667, 350, 200),
    (2560000000000000, 256000000, 255999999), (2559999999999999, 255999999, 255999998), (-2559999999999999, 255999999, 128000000),
    (1, 256000000, 255999999), (1, 256000000, 128000000), (1, 256000000, 127999999), (-1, 2, 1), (3, 2, 1), (-3, 2, 1),
    (2559999744000000, 255999744, 7), (-2560000000000000, 256000000, 256000000), (0, 1, 1), (1000, 3, 0),
]
RUNS = [(1000, 3, [1, 1, 1]), (1001, 3, [1, 1, 1]), (-3651667, 350, [200, 100, 49, 1]), (2, 5, [1, 1, 1, 1, 1])]
SUMS = [
    (190000, 1080000, 100), (1, 1080000, 100), (1, 1, 0), (1000000, 1, 0), (0, 1000000, 0),
    (5000000000000000000, 100000000, 10000), (5000000000000000000, 100000000, 9999), (90000000000000000, 100000000, 0),
    (90000000000000001, 100000000, 0), (45000000000000000, 100000000, 10000), (45000000000000001, 100000000, 10000),
    (5242879737856000000, 1000000, 0), (9000000000000000000, 1000000, 0), (9000000000000000001, 1000000, 0),
    (9223372036854775807, 1000000, 0), (30000, 7800000, 50), (3350000000, 7800000, 50),
]


def draw(rng, top):
    """A number from 0 to top, as often small or near the top as in between."""
    kind = rng.randrange(4)
    if kind == 0:
        return rng.randrange(min(top, 1000) + 1)
    if kind == 1:
        return top - rng.randrange(min(top, 1000) + 1)
    if kind == 2:
        return rng.randrange(2 ** rng.randrange(1, top.bit_length() + 1)) % (top + 1)
    return rng.randrange(top + 1)


def drawn(rng):
    for _ in range(140):
        q = max(1, draw(rng, MOST_SHARES))
        PARTS.append((draw(rng, MOST_MILS) * rng.choice((1, -1)), q, draw(rng, q)))
    for _ in range(143):
        SUMS.append((draw(rng, 2**63 - 1), max(1, draw(rng, TOP_RATE)), draw(rng, 10000)))


def part(m, q, k):
    size = abs(m) * k // q
    return -size if m < 0 else size


def counts(n):
    return "past" if n > LIMIT else str(n)


def output():
    for m, q, k in PARTS:
        yield f"part {part(m, q, k)}"
    for m, q, ks in RUNS:
        for k in ks:
            p = part(m, q, k)
            m, q = m - p, q - k
            yield f"goes {p} stays {m} {q}"
    for s, r, h in SUMS:
        down = s * r * (10000 - h) // 10**10
        up = -(-s * r * (10000 + h) // 10**10)
        yield f"favourable {counts(down)} unfavourable {counts(up)}"


def table(name, rows):
    width = len(rows[0])
    lines = "".join("    " + ", ".join(map(str, row)) + ",\n" for row in rows)
    return f"pub const {name}: [u64; {width * len(rows)}] = [\n{lines}];\n"


def signed(m):
    return (1 if m < 0 else 0, abs(m))


def main():
    drawn(random.Random(20121105))
    parts = [(*signed(m), q, k) for m, q, k in PARTS]
    runs = [(*signed(m), q, *(ks + [0] * (5 - len(ks)))) for m, q, ks in RUNS]
    with open(f"{HOME}/src/vectors.rt", "w") as f:
        f.write("// Written by tests/numbers.py, as is the expected output; do not edit.\n")
        f.write("\n// Parts: 1 for money below zero, the money's size, the position's shares, the part's.\n" + table("PARTS", parts))
        f.write("\n// Parts one after another: 1 for money below zero, the money's size, the position's shares, and the shares of five parts.\n" + table("RUNS", runs))
        f.write("\n// Sums of marks: the size, the rate, the haircut.\n" + table("SUMS", SUMS))
    with open(f"{HOME}/stdout", "w") as f:
        f.write("".join(line + "\n" for line in output()))


main()
