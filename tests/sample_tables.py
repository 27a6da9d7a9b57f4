"""Writes a table of luma samples at quarter-sample positions, always the same.

One record a line, numbers in decimal, one space between:

  list WIDTH HEIGHT N           begins a list of N pictures; their rows follow
  samples V V V ..              a row of WIDTH samples
  drawn WIDTH HEIGHT N A B C    begins a list without rows, whose sample at
                                (r, X, Y) is (A*X + B*Y + C + r) mod 256
  at PICTURE X Y SAMPLE         a sample, at (X, Y) in quarter samples
  strip PICTURE X Y WIDTH V ..  four rows of WIDTH samples, a whole sample
                                apart, row by row from (X, Y)

A picture not below N has the sample 0 everywhere.
"""

import random
import sys
from collections import Counter
from itertools import chain

from interpolator import intermediate, sample

LEAST, MOST = -32768, 32767
# So far that the last sample of the widest strip is at MOST.
STRIP_MOST_X, STRIP_MOST_Y = MOST - 4 * 15, MOST - 4 * 3
STRIP_WIDTHS = (4, 8, 16)
FRACTIONS = [(xFrac, yFrac) for yFrac in range(4) for xFrac in range(4)]

rng = random.Random(20240)
lines = []
counts = Counter()
covered = set()


def between(low, high):
    """A number from low to high, both included."""
    # Only random() is promised to be the same in every version of Python.
    return low + int(rng.random() * (high - low + 1))


def pick(values):
    return values[between(0, len(values) - 1)]


# Pictures.

def picture(width, height, value):
    return [value(x, y) for y in range(height) for x in range(width)]


def noise(width, height):
    return picture(width, height, lambda x, y: between(0, 255))


def extremes(width, height):
    return picture(width, height, lambda x, y: 255 * between(0, 1))


def smooth(width, height):
    return picture(width, height, lambda x, y: 8 + 2 * x + 3 * y + x * y // 32)


def checkers(cell):
    return lambda width, height: picture(
        width, height, lambda x, y: 255 * ((x // cell + y // cell) % 2))


def edges(width, height):
    """A quarter each: upright bars, a slanting edge, level bars, a grid."""
    def value(x, y):
        if y < height // 2:
            return 255 * (x % 8 in (2, 3) if x < width // 2 else x + y < width)
        return 255 * (y % 5 in (1, 2) if x < width // 2
                      else x % 7 < 3 or y % 6 < 2)
    return picture(width, height, value)


def spikes(width, height):
    """One, two or four samples: light on dark at left, dark on light at right."""
    samples = picture(width, height, lambda x, y: 255 * (x >= width // 2))
    for _ in range(width * height // 20):
        x, y = between(0, width - 2), between(0, height - 2)
        across, down = between(1, 2), between(1, 2)
        for dy in range(down):
            for dx in range(across):
                samples[(y + dy) * width + x + dx] = 255 * (x < width // 2)
    return samples


# Size, pictures, and which share of the strip places the list gets:
# every `step`th, from `first` on.
LISTS = (
    (16, 16, (noise,), 0, 8),
    (16, 16, (checkers(1), edges, spikes, extremes), 3, 8),
    (32, 16, (spikes, smooth, noise), 0, 4),
    (32, 16, (extremes, checkers(2)), 2, 4),
    (48, 32, (noise, spikes), 0, 2),
    (48, 32, (edges, extremes, smooth, checkers(3)), 1, 2),
)

# Size, number of pictures, A, B, C.
DRAWN = (
    (16, 16, 1, 0, 0, 0),
    (32, 16, 2, 255, 255, 255),
    (48, 32, 4, 255, 0, 0),
    (48, 32, 3, 0, 255, 0),
    (16, 16, 4, 0, 0, 255),
    (32, 16, 3, 17, 91, 203),
)


# Places.  A cell is the position of a whole sample.

def extreme(frac, most=MOST):
    """The least or the greatest coordinate with this fraction."""
    return pick((LEAST + frac, most - (most - frac) % 4))


def at_positions(width, height):
    """Quarter-sample positions in and about a picture, each fraction alike."""
    right, bottom = width - 1, height - 1

    def inside(last):  # with all six taps
        return between(2, last - 3)

    def before():
        return -between(1, 5)

    def after(last):
        return last + between(1, 5)

    def far(last):
        return pick((between(LEAST // 4, -40), between(last + 40, MOST // 4)))

    for xFrac, yFrac in FRACTIONS:
        cells = [(inside(right), inside(bottom)) for _ in range(3)]
        # Borders, corners.
        cells += [(x, inside(bottom))
                  for x in (between(0, 1), right - between(0, 2))]
        cells += [(inside(right), y)
                  for y in (between(0, 1), bottom - between(0, 2))]
        cells += [(x, y) for x in (0, right) for y in (0, bottom)]
        # A few cells outside: each side, then past a corner.
        cells += [(x, between(0, bottom)) for x in (before(), after(right))]
        cells += [(between(0, right), y) for y in (before(), after(bottom))]
        cells += [(before(), before()),
                  (pick((before(), after(right))), after(bottom))]
        # Far outside.
        cells += [(far(right), inside(bottom)), (inside(right), far(bottom))]
        for x, y in cells:
            yield 4 * x + xFrac, 4 * y + yFrac
        yield extreme(xFrac), 4 * inside(bottom) + yFrac
        yield 4 * inside(right) + xFrac, extreme(yFrac)
        yield extreme(xFrac), extreme(yFrac)
    for x in (LEAST, MOST):
        for y in (LEAST, MOST):
            yield x, y


def halves(plane, width, height, xInt, yInt):
    """b, h and j of a cell, each with its fraction; rounded but not clipped."""
    v = intermediate(plane, width, height, xInt, yInt)
    return (("b", (2, 0), (v.b1 + 16) >> 5),
            ("h", (0, 2), (v.h1 + 16) >> 5),
            ("j", (2, 2), (v.j1 + 512) >> 10))


def clipped(value):
    return "below 0" if value < 0 else "above 255" if value > 255 else "within"


def clipping_positions(plane, width, height):
    """Up to four places where b clips below, above, likewise h and j;
    with each, a random position of the same cell."""
    found = Counter()
    for _ in range(200):
        x, y = between(0, width - 1), between(0, height - 1)
        for name, (xFrac, yFrac), value in halves(plane, width, height, x, y):
            side = clipped(value)
            if side != "within" and found[name, side] < 4:
                found[name, side] += 1
                yield 4 * x + xFrac, 4 * y + yFrac
                yield 4 * x + between(0, 3), 4 * y + between(0, 3)


def strip_places(width, height):
    """(place, strip width, X, Y) for each width, fraction and kind of place."""
    for strip in STRIP_WIDTHS:
        for xFrac, yFrac in FRACTIONS:
            x = between(0, max(width - strip - 1, 0))
            y = between(0, height - 5)
            # One cell more than the strip itself, for the fraction.
            x_out = pick((-strip - between(1, 6), width + between(0, 6)))
            y_out = pick((-4 - between(1, 6), height + between(0, 6)))
            for place, (xInt, yInt) in (
                ("inside", (x, y)),
                ("left", (-between(1, strip - 1), y)),
                ("right", (width - between(1, strip - 1), y)),
                ("top", (x, -between(1, 3))),
                ("bottom", (x, height - between(1, 3))),
                ("outside", pick(((x_out, y), (x, y_out), (x_out, y_out)))),
            ):
                yield place, strip, 4 * xInt + xFrac, 4 * yInt + yFrac


def far_strip_positions():
    for x in (LEAST, STRIP_MOST_X):
        for y in (LEAST, STRIP_MOST_Y):
            yield x, y
    yield extreme(between(0, 3), STRIP_MOST_X), between(-8, 60)
    yield between(-8, 60), extreme(between(0, 3), STRIP_MOST_Y)


# Records.

def write(kind, *numbers):
    counts[kind] += 1
    lines.append(" ".join(map(str, (kind,) + numbers)) + "\n")


class Records:
    """Writes records of a list of n pictures; sample_of(r, x, y) gives them."""

    def __init__(self, n, sample_of):
        self.n, self.sample_of = n, sample_of

    def value(self, r, x, y):
        assert LEAST <= x <= MOST and LEAST <= y <= MOST
        return self.sample_of(r, x, y) if r < self.n else 0

    def at(self, r, x, y):
        write("at", r, x, y, self.value(r, x, y))

    def strip(self, r, x, y, width):
        assert x <= STRIP_MOST_X and y <= STRIP_MOST_Y
        write("strip", r, x, y, width,
              *(self.value(r, x + 4 * dx, y + 4 * dy)
                for dy in range(4) for dx in range(width)))


def count_clipped(plane, width, height, x, y):
    for name, fraction, value in halves(plane, width, height, x // 4, y // 4):
        if fraction == (x % 4, y % 4):
            counts[name, clipped(value)] += 1


def write_list(width, height, kinds, first, step):
    n = len(kinds)
    planes = [kind(width, height) for kind in kinds]
    write("list", width, height, n)
    for plane in planes:
        for y in range(height):
            write("samples", *plane[y * width:(y + 1) * width])
    records = Records(n, lambda r, x, y: sample(planes[r], width, height, x, y))

    for r in range(n):
        for x, y in chain(at_positions(width, height),
                          clipping_positions(planes[r], width, height)):
            records.at(r, x, y)
            count_clipped(planes[r], width, height, x, y)
            covered.add((x < 0, y < 0, x % 4, y % 4))
    for r in (n, n + 1, 31):
        records.at(r, between(0, 4 * width - 1), between(0, 4 * height - 1))
        records.at(r, between(-40, -1), between(-40, -1))
        records.at(r, extreme(between(0, 3)), extreme(between(0, 3)))

    for index, (place, strip, x, y) in enumerate(strip_places(width, height)):
        # The share moves on by one place from each fraction to the next.
        if (index + index // 6) % step == first:
            records.strip(between(0, n - 1), x, y, strip)
            if width == 48:
                covered.add((place, strip, x % 4, y % 4))
    for x, y in far_strip_positions():
        records.strip(between(0, n - 1), x, y, pick(STRIP_WIDTHS))
    records.strip(n, 9, 6, 4)
    records.strip(n + 1, -5, 3, 8)


def write_drawn(width, height, n, A, B, C):
    write("drawn", width, height, n, A, B, C)
    records = Records(n, lambda r, x, y: (A * x + B * y + C + r) % 256)

    def picture_number():
        return between(0, n - 1)

    for x in (LEAST, -1, MOST):
        for y in (LEAST, 0, MOST):
            records.at(picture_number(), x, y)
    for _ in range(6):
        records.at(picture_number(), between(LEAST, MOST), between(LEAST, MOST))
    records.at(n, 4, 8)
    records.at(31, LEAST, MOST)

    records.strip(picture_number(), LEAST, STRIP_MOST_Y, pick(STRIP_WIDTHS))
    records.strip(picture_number(), STRIP_MOST_X, LEAST, pick(STRIP_WIDTHS))
    records.strip(picture_number(), between(-64, 64), between(-64, 64), 16)
    records.strip(n, 5, 7, 4)


def check():
    """The table is as large and as varied as it should be."""
    assert counts["at"] >= 4500 and counts["strip"] >= 300
    assert sum(map(len, lines)) < 250_000
    for name in "bhj":
        for side in ("below 0", "above 255"):
            assert counts[name, side] >= 50
    for xFrac, yFrac in FRACTIONS:
        for x_negative in (False, True):
            for y_negative in (False, True):
                assert (x_negative, y_negative, xFrac, yFrac) in covered
        for place in ("inside", "left", "right", "top", "bottom", "outside"):
            for strip in STRIP_WIDTHS:
                assert (place, strip, xFrac, yFrac) in covered


def main():
    for each in LISTS:
        write_list(*each)
    for each in DRAWN:
        write_drawn(*each)
    check()
    sys.stdout.writelines(lines)


if __name__ == "__main__":
    main()
