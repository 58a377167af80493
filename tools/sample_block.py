#!/usr/bin/env python3
"""Writes the sample block of the programs, and prints what a scan of it must say.

It is a second, independent statement of the code: products by shifting, coding by solving for the
check symbols with Lagrange's formula instead of dividing, syndromes by their definition.
Usage: tools/sample_block.py [FILE]   (default: crates/scan/stdin)
"""
import random
import sys

ROWS, COLUMNS, ROW_MESSAGE, COLUMN_MESSAGE = 208, 182, 172, 192


def product(a, b):
    r = 0
    while b:
        if b & 1:
            r ^= a
        a <<= 1
        if a & 0x100:
            a ^= 0x11D
        b >>= 1
    return r


POWER = [1]
while len(POWER) < 255:
    POWER.append(product(POWER[-1], 2))
LOG = {x: i for i, x in enumerate(POWER)}


def times(a, b):
    return POWER[(LOG[a] + LOG[b]) % 255] if a and b else 0


def syndrome(line, i):
    s = 0
    for p, byte in enumerate(line):
        s ^= times(byte, POWER[i * (len(line) - 1 - p) % 255])
    return s


def parity_rows(length, checks):
    """For each message place, what a symbol 1 there makes of each check symbol."""
    places = list(range(length - checks, length))
    locator = [POWER[(length - 1 - p) % 255] for p in range(length)]
    table = []
    for p in range(length - checks):
        row = []
        for j in places:
            # the weight at j that cancels the power sums of a 1 at p: a ratio of differences of locators
            top = bottom = 0
            for k in places:
                if k != j:
                    top += LOG[locator[p] ^ locator[k]]
                    bottom += LOG[locator[j] ^ locator[k]]
            row.append(POWER[(top - bottom) % 255])
        table.append(row)
    return table


def code(message, table):
    checks = [0] * len(table[0])
    for symbol, row in zip(message, table):
        for j, weight in enumerate(row):
            checks[j] ^= times(symbol, weight)
    return list(message) + checks


def clean_frame(message):
    by_row, by_column = parity_rows(COLUMNS, COLUMNS - ROW_MESSAGE), parity_rows(ROWS, ROWS - COLUMN_MESSAGE)
    rows = [code(message[i * ROW_MESSAGE:(i + 1) * ROW_MESSAGE], by_row) for i in range(COLUMN_MESSAGE)]
    columns = [code([row[j] for row in rows], by_column) for j in range(COLUMNS)]
    return [[columns[j][i] for j in range(COLUMNS)] for i in range(ROWS)]


def scratch(frame):
    """A scratch over rows 96 to 103, dust, and row 150, whose first five syndromes stay 0."""
    rng = random.Random(20261118)
    for i in range(96, 104):
        for j in range(40 + 2 * (i - 96), 100 + 3 * (i - 96)):
            frame[i][j] = rng.randrange(256)
    for i, j in [(0, 0), (3, 17), (3, 18), (57, 120), (57, 121), (57, 122), (120, 181), (207, 90)]:
        frame[i][j] ^= rng.randrange(1, 256)
    divisor = [1]
    for r in range(5):
        divisor = [a ^ times(b, POWER[r]) for a, b in zip(divisor + [0], [0] + divisor)]
    for k, symbol in enumerate(divisor):
        frame[150][60 + k] ^= symbol


def solve(matrix, right):
    """Gaussian elimination; None where the matrix is singular."""
    n = len(matrix)
    rows = [list(r) + [x] for r, x in zip(matrix, right)]
    for c in range(n):
        pivot = next((r for r in range(c, n) if rows[r][c]), None)
        if pivot is None:
            return None
        rows[c], rows[pivot] = rows[pivot], rows[c]
        inverse = POWER[-LOG[rows[c][c]] % 255]
        rows[c] = [times(x, inverse) for x in rows[c]]
        for r in range(n):
            if r != c and rows[r][c]:
                f = rows[r][c]
                rows[r] = [x ^ times(f, y) for x, y in zip(rows[r], rows[c])]
    return [r[n] for r in rows]


def wrong_places(line, checks):
    """How many places of a line are wrong, by Peterson's method: linear systems for the locator and the values. None: stuck."""
    s = [syndrome(line, k) for k in range(checks)]
    if not any(s):
        return 0
    for v in range(checks // 2, 0, -1):
        locator = solve([[s[i + j] for j in range(v)] for i in range(v)], [s[i + v] for i in range(v)])
        if locator is None:
            continue
        places = []
        for p in range(len(line)):
            x = POWER[(len(line) - 1 - p) % 255]
            value = POWER[LOG[x] * v % 255]
            for j in range(v):
                value ^= times(locator[j], POWER[LOG[x] * j % 255])
            if value == 0:
                places.append(p)
        if len(places) != v:
            return None
        xs = [(len(line) - 1 - p) % 255 for p in places]
        values = solve([[POWER[x * k % 255] for x in xs] for k in range(v)], s[:v])
        mended = list(line)
        for p, e in zip(places, values):
            mended[p] ^= e
        return None if any(syndrome(mended, k) for k in range(checks)) else v
    return None


def runs(numbers):
    out = []
    for n in numbers:
        if out and n == out[-1][1] + 1:
            out[-1][1] = n
        else:
            out.append([n, n])
    return ", ".join(f"{a}" if a == b else f"{a}-{b}" for a, b in out) or "none"


def report(frame):
    bad_rows = [i for i in range(ROWS) if any(syndrome(frame[i], k) for k in range(10))]
    columns = [[frame[i][j] for i in range(ROWS)] for j in range(COLUMNS)]
    bad_columns = [j for j in range(COLUMNS) if any(syndrome(columns[j], k) for k in range(16))]
    print(f"rows: {ROWS - len(bad_rows)} of {ROWS} are codewords; not: {runs(bad_rows)}")
    print(f"columns: {COLUMNS - len(bad_columns)} of {COLUMNS} are codewords; not: {runs(bad_columns)}")
    print(f"work: {ROWS * COLUMNS} symbols through 10 syndromes by rows and through 16 by columns")
    wrong = [wrong_places(row, 10) for row in frame]
    mended = [w for w in wrong if w]
    print(f"rows decoded: {wrong.count(0)} were codewords, {len(mended)} mended at {sum(mended)} bytes, {wrong.count(None)} stuck")


def main():
    captions = "".join(f"{n:04} Good evening. This line of the bulletin is number {n}, and its name is spelt right.\r\n" for n in range(1, 1000))
    message = list(captions.encode("ascii")[:ROW_MESSAGE * COLUMN_MESSAGE])
    frame = clean_frame(message)
    assert not any(syndrome(row, k) for row in frame for k in range(10))
    scratch(frame)
    assert not any(syndrome(frame[150], k) for k in range(5)) and syndrome(frame[150], 5)
    with open(sys.argv[1] if len(sys.argv) > 1 else "crates/scan/stdin", "wb") as out:
        out.write(bytes(b for row in frame for b in row))
    report(frame)


main()
