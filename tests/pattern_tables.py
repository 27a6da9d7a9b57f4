"""Writes a table of the offsets of the patterns and of full rounds, always the same.

One record a line, numbers in decimal, one space between:

  offsets NAME W X Y X Y ..  the offsets of a pattern, in order; W is 0 for a
                             pattern that has no range
  round REACH X Y X Y ..     the offsets of a full round from the centre of a
                             window that reaches so far, in order

NAME is diamond, hexagon, square, cross, rings, eight1 or eight2.
"""

RANGES = range(4, 65, 4)
REACHES = (3, 4, 8)

DIAMOND = [(1, 0), (-1, 0), (0, 1), (0, -1)]
HEXAGON = [(2, 0), (-2, 0), (1, 2), (1, -2), (-1, 2), (-1, -2)]

# The five groups of ring 1, without signs.
GROUPS = [(4, 2), (4, 1), (4, 0), (2, 3), (0, 4)]


def square():
    return [(x, y) for y in range(-2, 3) for x in range(-2, 3)]


def eight(distance):
    steps = (-distance, 0, distance)
    return [(x, y) for y in steps for x in steps if (x, y) != (0, 0)]


def cross(w):
    offsets = []
    for i in range(1, w // 2 + 1):
        offsets += [(2 * i - 1, 0), (1 - 2 * i, 0)]
    for i in range(1, w // 4 + 1):
        offsets += [(0, 2 * i - 1), (0, 1 - 2 * i)]
    return offsets


def signs(value):
    """Plus before minus; 0 has no sign."""
    return [value, -value] if value else [0]


def ring_1():
    # The vertical sign alternates fastest.
    return [(x, y) for across, down in GROUPS
            for x in signs(across) for y in signs(down)]


def rings(w):
    return [(k * x, k * y) for k in range(1, w // 4 + 1) for x, y in ring_1()]


def full_round(reach):
    """All of the window: by distance, then from the top, then from the left."""
    window = [(x, y) for x in range(-reach, reach + 1)
              for y in range(-reach, reach + 1)]
    return sorted(window, key=lambda o: (max(abs(o[0]), abs(o[1])), o[1], o[0]))


def write(*words):
    print(*words)


def write_offsets(name, w, offsets):
    write("offsets", name, w, *(z for offset in offsets for z in offset))


def check():
    """The examples that the rules print, and the counts."""
    assert cross(4) == [(1, 0), (-1, 0), (3, 0), (-3, 0), (0, 1), (0, -1)]
    assert cross(8) == [(1, 0), (-1, 0), (3, 0), (-3, 0), (5, 0), (-5, 0),
                        (7, 0), (-7, 0), (0, 1), (0, -1), (0, 3), (0, -3)]
    assert ring_1()[:4] == [(4, 2), (4, -2), (-4, 2), (-4, -2)]
    assert rings(8)[16:20] == [(8, 4), (8, -4), (-8, 4), (-8, -4)]
    assert full_round(1) == [(0, 0)] + eight(1)
    assert len(square()) == 25
    for w in RANGES:
        assert len(cross(w)) == 3 * w // 2 and len(rings(w)) == 4 * w
    for reach in REACHES:
        assert len(set(full_round(reach))) == (2 * reach + 1) ** 2


def main():
    check()
    write_offsets("diamond", 0, DIAMOND)
    write_offsets("hexagon", 0, HEXAGON)
    write_offsets("square", 0, square())
    write_offsets("eight1", 0, eight(1))
    write_offsets("eight2", 0, eight(2))
    for w in RANGES:
        write_offsets("cross", w, cross(w))
        write_offsets("rings", w, rings(w))
    for reach in REACHES:
        write("round", reach, *(z for o in full_round(reach) for z in o))


if __name__ == "__main__":
    main()
