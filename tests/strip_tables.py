"""Writes a table of pairs of strips with their costs, always the same.

One record a line, one space between:

  costs WIDTH A B SAD SSD SATD

A and B are strips of four rows of WIDTH samples, row by row, two hexadecimal
digits a sample. Where the two have not the same width, or one that is not 4, 8
or 16, WIDTH is that of A and all three costs are 0.

The costs are worked out here from their definitions alone: the sum of absolute
differences, the sum of squared differences, and for each 4x4 square of
differences D half the sum of the absolute entries of K D K^T.
"""

import random
import sys
from collections import Counter

WIDTHS = (4, 8, 16)

K = [[1, 1, 1, 1],
     [1, 1, -1, -1],
     [1, -1, -1, 1],
     [1, -1, 1, -1]]

rng = random.Random(264)
lines = []
counts = Counter()
most = Counter()


def between(low, high):
    """A number from low to high, both included."""
    # Only random() is promised to be the same in every version of Python.
    return low + int(rng.random() * (high - low + 1))


def pick(values):
    return values[between(0, len(values) - 1)]


# The costs.

def product(left, right):
    """The product of two 4x4 matrices."""
    return [[sum(left[i][k] * right[k][j] for k in range(4)) for j in range(4)] for i in range(4)]


def transposed(matrix):
    return [list(column) for column in zip(*matrix)]


def square_cost(D):
    """Half the sum of the absolute entries of K D K^T, which is even."""
    entries = product(product(K, D), transposed(K))
    total = sum(abs(entry) for row in entries for entry in row)
    assert total % 2 == 0
    return total // 2


def costs(a, b):
    """SAD, SSD and SATD of two strips of one width."""
    width = len(a) // 4
    rows = [[a[width * r + c] - b[width * r + c] for c in range(width)] for r in range(4)]
    differences = [d for row in rows for d in row]
    squares = [[row[left:left + 4] for row in rows] for left in range(0, width, 4)]
    return (sum(abs(d) for d in differences),
            sum(d * d for d in differences),
            sum(square_cost(D) for D in squares))


# Records.

def write(a, b, result):
    lines.append("costs %d %s %s %d %d %d\n" % (len(a) // 4, bytes(a).hex(), bytes(b).hex(), *result))


def pair(a, b):
    """A record of two strips of one width."""
    assert len(a) == len(b) and len(a) // 4 in WIDTHS
    result = costs(a, b)
    write(a, b, result)
    width = len(a) // 4
    counts[width] += 1
    for name, cost in zip(("SAD", "SSD", "SATD"), result):
        most[name, width] = max(most[name, width], cost)


def both_ways(a, b):
    pair(a, b)
    pair(b, a)


def no_strips(a, b):
    """A record of two lists that are no strips of one width: every cost is 0."""
    write(a, b, (0, 0, 0))
    counts["none"] += 1


# Strips.

def strip(width, value):
    """The strip with value(column, row)."""
    return [value(x, y) for y in range(4) for x in range(width)]


def flat(width, value):
    return [value] * (4 * width)


def noise(width):
    return strip(width, lambda x, y: between(0, 255))


def ramp(width):
    start, right, down = between(0, 255), between(-9, 9), between(-20, 20)
    return strip(width, lambda x, y: (start + right * x + down * y) % 256)


def edge(width):
    """Two values, parted by a slanting line."""
    low, high, at, slant = between(0, 120), between(130, 255), between(0, width), between(-2, 2)
    return strip(width, lambda x, y: low if x + slant * y < at else high)


def near(a, reach):
    """Like a, each sample off by at most reach."""
    return [min(max(v + between(-reach, reach), 0), 255) for v in a]


def dented(a, places):
    """Like a but for some samples."""
    b = list(a)
    for _ in range(places):
        b[between(0, len(b) - 1)] = between(0, 255)
    return b


def signed(width, positive):
    """Strips that differ by 255 where positive(x, y), and else by -255."""
    a = strip(width, lambda x, y: 255 if positive(x, y) else 0)
    return a, [255 - v for v in a]


def bent_square(form, mask, flip):
    """Whether each of the sixteen differences is positive, such that all entries of K D K^T are equally large.

    A bent function of the four bits of column and row: a quadratic form of full rank, and any affine one.
    """
    others = [k for k in (1, 2, 3) if k != form]

    def positive(x, y):
        bits = [x % 2, x // 2 % 2, y % 2, y // 2 % 2]
        value = bits[0] * bits[form] + bits[others[0]] * bits[others[1]] + flip
        return (value + sum(bit for k, bit in enumerate(bits) if mask >> k & 1)) % 2 == 0

    return positive


BENT = [bent_square(form, mask, flip) for form in (1, 2, 3) for mask in range(16) for flip in (0, 1)]


def bent(squares):
    """Strips whose squares are such, side by side: those with the greatest SATD."""
    return signed(4 * len(squares), lambda x, y: squares[x // 4](x % 4, y))


# The table.

def write_extremes(width):
    both_ways(flat(width, 0), flat(width, 255))
    for value in (0, 1, 128, 255):
        pair(flat(width, value), flat(width, value))
    for low, high in ((0, 1), (127, 128), (254, 255), (0, 3)):
        both_ways(flat(width, low), flat(width, high))
    signs = [lambda x, y: (x + y) % 2 == 0, lambda x, y: x % 2 == 0, lambda x, y: y % 2 == 0,
             lambda x, y: x % 4 < 2, lambda x, y: y < 2, lambda x, y: (x // 2 + y // 2) % 2 == 0,
             lambda x, y: x < width // 2, lambda x, y: x * y % 2 == 0, lambda x, y: x % 4 >= y]
    for positive in signs:
        both_ways(*signed(width, positive))
    # The row u of K along a column of each square, the row v along a row.
    for u in range(4):
        for v in range(4):
            pair(*signed(width, lambda x, y: K[u][y] * K[v][x % 4] > 0))


def write_single(width, values, step):
    """One difference, at every place or every few."""
    for place in range(0, 4 * width, step):
        for value in values:
            base = between(0, 255 - value)
            a = flat(width, base)
            b = list(a)
            b[place] = base + value
            both_ways(a, b)


def write_many(width, each):
    for square in BENT if width == 4 else BENT[::6]:
        pair(*bent([square] + [pick(BENT) for _ in range(width // 4 - 1)]))
    for _ in range(each):
        pair(*signed(width, lambda x, y: between(0, 1) == 0))
        pair(noise(width), noise(width))
        pair(ramp(width), ramp(width))
        pair(edge(width), edge(width))
        a = pick((noise, ramp, edge))(width)
        pair(a, near(a, pick((1, 2, 8, 40))))
        pair(a, dented(a, between(0, 5)))
        pair(a, a)


def write_no_strips():
    for m in (4, 8, 12, 16, 20, 32, 48, 64, 68, 128):
        for n in (16, 32, 48, 64):
            if m != n or m == 48:
                a, b = [between(0, 255) for _ in range(m)], [between(0, 255) for _ in range(n)]
                no_strips(a, b)


def check():
    """The table is as large and as varied as it should be."""
    assert len(set(lines)) - counts["none"] >= 2000
    assert sum(map(len, lines)) < 300_000
    for width in WIDTHS:
        assert counts[width] >= 300
        assert most["SAD", width] == 4 * width * 255
        assert most["SSD", width] == 4 * width * 255 * 255
        assert most["SATD", width] == width // 4 * 8160


def main():
    for width, values, step, each in ((4, (1, 3, 255), 1, 134), (8, (3, 255), 2, 70), (16, (3,), 4, 30)):
        write_extremes(width)
        write_single(width, values, step)
        write_many(width, each)
    write_no_strips()
    check()
    sys.stdout.writelines(lines)


if __name__ == "__main__":
    main()
