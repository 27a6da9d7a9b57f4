"""Model of `price`, straight from the definitions, in exact integers.

Samples between whole ones are those of interpolator.py. It shares nothing with the
engine: no tables, no strips read early, no windows beyond their centres.
"""
import struct

import interpolator

SHAPES = ((16, 16), (16, 8), (8, 16), (8, 8), (8, 4), (4, 8), (4, 4))
HEAD = 20          # bytes of the ten head numbers
LONGEST = 65536    # bytes of the longest job
K = ((1, 1, 1, 1), (1, 1, -1, -1), (1, -1, -1, 1), (1, -1, 1, -1))  # signs of SATD


class Refused(Exception):
    """A fault: its row, its layer and the value found."""

    def __init__(self, row, layer, value):
        super().__init__(row, layer, value)
        self.text = f"refused {row} {layer} {value}\n"


def pack(width, height, n, m, left, top, bw, bh, qp, w, pred, props, current, refs):
    """The bytes of a job. The head is written as given, right or wrong.

    pred and props are (horizontal, vertical) pairs, current is the bytes of one
    plane, refs a sequence of such planes.
    """
    head = (width, height, n, m, left, top, bw, bh, qp, w)
    vectors = [*pred, *props]
    numbers = [*head, *(x for x, _ in vectors), *(y for _, y in vectors)]
    return struct.pack(f"<{len(numbers)}h", *numbers) + current + b"".join(refs)


def size_allowed(size):
    return 16 <= size <= 1920 and size % 16 == 0


def place_allowed(start, extent, size):
    """A block's left (or top), its width (or height), the plane's size."""
    return start % extent == 0 and 0 <= start and start + extent <= size


def vet_head(job):
    """The ten head numbers; refuses sizes, counts and the job's length."""
    if not HEAD <= len(job) <= LONGEST:
        raise Refused(4, 6, min(len(job), LONGEST + 1))
    head = struct.unpack_from("<10h", job)
    width, height, n, m = head[:4]
    for size in (width, height):
        if not size_allowed(size):
            raise Refused(1, 1, size)
    if not 1 <= n <= 16:
        raise Refused(2, 2, n)
    if not 0 <= m <= 64:
        raise Refused(3, 6, m)
    if len(job) != HEAD + 4 * (n + m) + width * height * (n + 1):
        raise Refused(4, 6, len(job))
    return head


def vet_settings(width, height, left, top, bw, bh, qp, w, pred):
    """Refuses a block or settings that no search opens with."""
    if (bw, bh) not in SHAPES:
        raise Refused(5, 3, bw)
    if not place_allowed(left, bw, width):
        raise Refused(6, 3, left)
    if not place_allowed(top, bh, height):
        raise Refused(6, 3, top)
    if not 0 <= qp <= 51:
        raise Refused(8, 4, qp)
    if w % 4 != 0 or not 4 <= w <= 64:
        raise Refused(9, 4, w)
    for vector in pred:
        for component in vector:
            if not -4096 <= component <= 4096:
                raise Refused(10, 4, component)


def code_number(d):
    """The signed difference d as a code number."""
    return 2 * d - 1 if d > 0 else -2 * d


def code_length(k):
    """2 floor(log2(k + 1)) + 1 bits."""
    return 2 * ((k + 1).bit_length() - 1) + 1


def scaled_lambda(qp):
    """The greatest L with 8000 L^6 <= 4913 * 2^(84 + QP), found bit by bit."""
    found = 0
    for bit in reversed(range(32)):
        tried = found + 2**bit
        if 8000 * tried**6 <= 4913 * 2 ** (84 + qp):
            found = tried
    return found


def rate(n, r, vector, predicted):
    """Bits of a vector in picture r, both vectors in quarter samples."""
    bits = sum(code_length(code_number(v - p)) for v, p in zip(vector, predicted))
    return bits + (code_length(r) if n > 1 else 0)


def rate_part(qp, bits):
    return scaled_lambda(qp) * bits // 65536


def centre(p):
    """Whole-sample centre of a window from a predicted component."""
    return (p + 2) // 4


def list_sample(plane, width, height, x, y):
    """The reference picture's sample at (x, y) in quarter samples."""
    if x % 4 == 0 and y % 4 == 0:
        return interpolator.whole_sample(plane, width, height, x // 4, y // 4)
    return interpolator.sample(plane, width, height, x, y)


def differences(current, reference, width, left, top, bw, bh, height, x, y):
    """Rows of the block's samples less those under it, moved by (x, y) in quarter samples."""
    return [
        [current[k * width + i] - list_sample(reference, width, height, 4 * i + x, 4 * k + y)
         for i in range(left, left + bw)]
        for k in range(top, top + bh)
    ]


def sad(rows):
    return sum(abs(d) for row in rows for d in row)


def ssd(rows):
    return sum(d * d for row in rows for d in row)


def satd(rows):
    """Half the sum of the absolute entries of K D K' over all 4x4 squares."""
    total = 0
    for k in range(0, len(rows), 4):
        for i in range(0, len(rows[0]), 4):
            for u in K:
                for v in K:
                    total += abs(sum(u[r] * v[c] * rows[k + r][i + c]
                                     for r in range(4) for c in range(4)))
    assert total % 2 == 0
    return total // 2


class NoPrice(Exception):
    """A named vector that has no price."""


def priced_lines(job, named):
    """One line for each picture's centre, or one for the named (picture, x, y); may refuse."""
    width, height, n, m, left, top, bw, bh, qp, w = vet_head(job)
    vectors = struct.unpack_from(f"<{2 * (n + m)}h", job, HEAD)
    pred = list(zip(vectors[:n], vectors[n + m : n + m + n]))
    vet_settings(width, height, left, top, bw, bh, qp, w, pred)

    samples = job[HEAD + 4 * (n + m) :]
    area = width * height
    current = samples[:area]
    if named is None:
        asked = [(r, 4 * centre(pred[r][0]), 4 * centre(pred[r][1])) for r in range(n)]
    else:
        asked = [named]
    for r, x, y in asked:
        if r >= n or max(abs(x - pred[r][0]), abs(y - pred[r][1])) > 261:
            raise NoPrice
        reference = samples[(r + 1) * area : (r + 2) * area]
        part = rate_part(qp, rate(n, r, (x, y), pred[r]))
        rows = differences(current, reference, width, left, top, bw, bh, height, x, y)
        costs = (measure(rows) + part for measure in (sad, ssd, satd))
        yield f"{r} {x} {y} {part} " + " ".join(map(str, costs)) + "\n"


def price(job, named=None):
    """All that `price` prints for the bytes of a job, and its exit status."""
    try:
        return "".join(priced_lines(job, named)), 0
    except Refused as refused:
        return refused.text, 0
    except NoPrice:
        return "", 1
