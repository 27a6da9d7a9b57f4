"""H.264 luma sample interpolation, after clause 8.4.2.2.1 of ITU-T H.264.

Slow and plain: one sample at a time, in the order and with the names of the
standard.  A plane is a sequence of width * height samples, row after row.
About the whole sample G the names lie so, a quarter sample apart from G to H:

               A  aa  B
               C  bb  D
         E  F  G a b c H  I  J
               d e f g
        cc dd  h i j k m  ee ff
               n p q r
         K  L  M   s   N  P  Q
               R  gg  S
               T  hh  U

Run as a program, it checks itself.
"""

import random
from types import SimpleNamespace

# The name of the sample at POSITION[xFrac][yFrac].
POSITION = (
    ("G", "d", "h", "n"),
    ("a", "e", "i", "p"),
    ("b", "f", "j", "q"),
    ("c", "g", "k", "r"),
)


def Clip3(low, high, value):
    return low if value < low else high if value > high else value


def Clip1Y(value):
    return Clip3(0, 255, value)


def six_tap(A, B, C, D, E, F):
    return A - 5 * B + 20 * C + 20 * D - 5 * E + F


def average(A, B):
    return (A + B + 1) >> 1


def whole_sample(plane, width, height, xInt, yInt):
    """The sample at a whole position; outside the picture, the nearest inside."""
    return plane[Clip3(0, height - 1, yInt) * width + Clip3(0, width - 1, xInt)]


def intermediate(plane, width, height, xInt, yInt):
    """The whole samples and the values not yet rounded or clipped, about G."""

    def whole(dx, dy):
        return whole_sample(plane, width, height, xInt + dx, yInt + dy)

    def across(dy):  # half way from column 0 to column 1, in row dy
        return six_tap(*(whole(dx, dy) for dx in range(-2, 4)))

    def down(dx):  # half way from row 0 to row 1, in column dx
        return six_tap(*(whole(dx, dy) for dy in range(-2, 4)))

    v = SimpleNamespace()
    v.G, v.H, v.M = whole(0, 0), whole(1, 0), whole(0, 1)
    v.b1, v.s1 = across(0), across(1)
    v.h1, v.m1 = down(0), down(1)
    v.cc, v.dd, v.ee, v.ff = down(-2), down(-1), down(2), down(3)
    v.j1 = six_tap(v.cc, v.dd, v.h1, v.m1, v.ee, v.ff)
    return v


def j1_down(plane, width, height, xInt, yInt):
    """j1 the other way: from aa, bb, b1, s1, gg, hh."""
    rows = [intermediate(plane, width, height, xInt, yInt + dy).b1
            for dy in range(-2, 4)]
    return six_tap(*rows)


def positions(plane, width, height, xInt, yInt):
    """The sixteen samples from G to r, by name."""
    v = intermediate(plane, width, height, xInt, yInt)
    G, H, M = v.G, v.H, v.M
    b = Clip1Y((v.b1 + 16) >> 5)
    h = Clip1Y((v.h1 + 16) >> 5)
    j = Clip1Y((v.j1 + 512) >> 10)
    s = Clip1Y((v.s1 + 16) >> 5)
    m = Clip1Y((v.m1 + 16) >> 5)
    return {
        "G": G, "b": b, "h": h, "j": j,
        "a": average(G, b), "c": average(H, b),
        "d": average(G, h), "n": average(M, h),
        "f": average(b, j), "i": average(h, j),
        "k": average(j, m), "q": average(j, s),
        "e": average(b, h), "g": average(b, m),
        "p": average(h, s), "r": average(m, s),
    }


def sample(plane, width, height, x, y):
    """The sample at (x, y), in quarter samples; any integers."""
    xInt, xFrac = divmod(x, 4)
    yInt, yFrac = divmod(y, 4)
    return positions(plane, width, height, xInt, yInt)[POSITION[xFrac][yFrac]]


def self_check():
    # Rows of six, whose middle is at columns 2 and 3: the values a, b, c.
    for row, a, b, c in (
        ((0, 0, 0, 255, 255, 255), 64, 128, 192),
        ((0, 0, 255, 255, 0, 0), 255, 255, 255),
        ((0, 255, 0, 0, 255, 0), 0, 0, 0),
    ):
        assert [sample(row, 6, 1, x, 0) for x in (9, 10, 11)] == [a, b, c]
        assert [sample(row, 1, 6, 0, y) for y in (9, 10, 11)] == [a, b, c]

    # G 255, H 100, M 40 and all else 0: the sixteen worked out by hand.
    plane = [0] * 64
    plane[3 * 8 + 3], plane[3 * 8 + 4], plane[4 * 8 + 3] = 255, 100, 40
    assert [[sample(plane, 8, 8, 12 + x, 12 + y) for x in range(4)]
            for y in range(4)] == [[255, 239, 222, 161],
                                   [220, 203, 188, 143],
                                   [184, 169, 154, 109],
                                   [112, 105, 90, 44]]

    rng = random.Random(1)
    width, height = 7, 5
    for values in (range(256), (0, 255)):
        for _ in range(8):
            plane = [rng.choice(values) for _ in range(width * height)]
            turned = [plane[y * width + x]
                      for x in range(width) for y in range(height)]
            mirrored = [plane[y * width + width - 1 - x]
                        for y in range(height) for x in range(width)]
            for y in range(-6, height + 6):
                for x in range(-6, width + 6):
                    v = intermediate(plane, width, height, x, y)
                    assert v.j1 == j1_down(plane, width, height, x, y)
            # Turned about the diagonal, or mirrored, the samples follow.
            for _ in range(400):
                x = rng.randrange(-24, 4 * width + 24)
                y = rng.randrange(-24, 4 * height + 24)
                value = sample(plane, width, height, x, y)
                assert value == sample(turned, height, width, y, x)
                assert value == sample(mirrored, width, height,
                                       4 * (width - 1) - x, y)
            # Far outside, the picture is its corners.
            for x, column in ((-32768, 0), (32767, width - 1)):
                for y, row in ((-32768, 0), (32767, height - 1)):
                    assert (sample(plane, width, height, x, y)
                            == plane[row * width + column])

    # A flat picture stays flat.
    for value in (0, 1, 128, 254, 255):
        for x in range(-9, 20):
            for y in range(-9, 20):
                assert sample([value] * 6, 3, 2, x, y) == value


if __name__ == "__main__":
    self_check()
    print("interpolator: all checks hold")
