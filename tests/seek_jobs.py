"""Runs a `seek` program on jobs made in memory and compares it with the book.

    python3 -B tests/seek_jobs.py PROGRAM [--all]

Standard output and the exit status have to agree, and standard error has to be empty.
Without --all only a few of the jobs are run, which takes a few seconds.
"""
import itertools
import random
import sys

sys.dont_write_bytecode = True
import book  # noqa: E402
import model  # noqa: E402
import price_jobs  # noqa: E402
from pattern_tables import DIAMOND, HEXAGON  # noqa: E402
from price_jobs import (  # noqa: E402
    BASE, GREATEST, LEAST, ONE_BLOCK, flat, make, random_place, run,
    same)


# Pictures: what makes one of a given width and height.

def noise(rng, width, height):
    return rng.randbytes(width * height)


def two(low, high):
    """Only two values. If they are near each other, many costs are equal."""
    return lambda rng, width, height: bytes(
        high if v & 1 else low for v in noise(rng, width, height))


def even(value):
    return lambda rng, width, height: flat(value, width * height)


def by_place(make_value):
    """A picture from a function of column and row, clipped."""
    def picture(rng, width, height):
        value = make_value(rng, width, height)
        return bytes(min(max(value(x, y), 0), 255) for y in range(height) for x in range(width))
    return picture


@by_place
def slope(rng, width, height):
    a, b = rng.choice(((1, 2), (3, -1), (-2, 3), (0, 4), (5, 0)))
    return lambda x, y: 128 + a * (x - width // 2) + b * (y - height // 2)


@by_place
def cone(rng, width, height):
    """Falls on all sides of one place."""
    left, top = rng.randrange(width), rng.randrange(height)
    return lambda x, y: 250 - 3 * abs(x - left) - 2 * abs(y - top)


@by_place
def periodic(rng, width, height):
    across, down = rng.randint(2, 6), rng.randint(2, 6)
    return lambda x, y: 60 + 20 * (x % across) + 11 * (y % down)


@by_place
def smooth(rng, width, height):
    """Random values eight samples apart, straight lines between them."""
    points = [[rng.randint(0, 255) for _ in range(width // 8 + 1)] for _ in range(height // 8 + 1)]

    def value(x, y):
        (i, u), (k, v) = divmod(x, 8), divmod(y, 8)
        above, below = (row[i] * (8 - u) + row[i + 1] * u for row in points[k : k + 2])
        return (above * (8 - v) + below * v) // 64

    return value


TEXTURES = (smooth, noise, slope, cone, periodic, two(100, 103), two(0, 255))


# Jobs whose block shows one of the reference pictures.

def moved(rng, reference, width, height, left, top, bw, bh, motion, dirt):
    """Rows of the block's samples, moved by so many quarter samples, with some noise."""
    x, y = motion

    def sample(i, k):
        value = model.list_sample(reference, width, height, 4 * i + x, 4 * k + y)
        return min(max(value + rng.randint(-dirt, dirt), 0), 255)

    return [bytes(sample(i, k) for i in range(left, left + bw)) for k in range(top, top + bh)]


def with_rows(plane, width, left, top, rows):
    """The plane with other samples from (left, top) on."""
    plane = bytearray(plane)
    for k, row in enumerate(rows, top):
        plane[k * width + left : k * width + left + len(row)] = row
    return bytes(plane)


def near(rng, vector, reach):
    """A vector that may be predicted, each component at most so far from the vector's."""
    return tuple(min(max(v + rng.randint(-reach, reach), -4096), 4096) for v in vector)


def seen(seed, motion, texture=smooth, *, shown=0, dirt=0, alike=False, reach=None, pred=None,
         **changes):
    """A job of the base head with changes, whose block shows picture `shown`.

    The motion is in quarter samples. Predicted vectors that are not given lie within reach
    of it, in most windows if no reach is given. If alike, all reference pictures are the same.
    """
    rng = random.Random(seed)
    head = {**BASE, "m": 0, **changes}
    width, height, n = head["width"], head["height"], head["n"]
    left, top, bw, bh = (head[name] for name in ("left", "top", "bw", "bh"))
    planes = [texture(rng, width, height) for _ in range(n)]
    if alike:
        planes = planes[:1] * n
    rows = moved(rng, planes[shown], width, height, left, top, bw, bh, motion, dirt)
    current = with_rows(noise(rng, width, height), width, left, top, rows)
    if pred is None:
        reach = 3 * head["w"] if reach is None else reach
        pred = [near(rng, motion, reach) for _ in range(n)]
    return make(pred=pred, samples=b"".join((current, *planes)), **head)


def first(bw, bh):
    """A block at the top left."""
    return dict(bw=bw, bh=bh, left=0, top=0)


def last(bw, bh):
    """A block at the bottom right of pictures of the base size."""
    return dict(bw=bw, bh=bh, left=BASE["width"] - bw, top=BASE["height"] - bh)


def some_proposals(rng, centres, w):
    """64 proposals: at the edges of windows, past them, in them, far out."""
    props = []
    for cx, cy in centres:
        props += [(cx + w, cy + w), (cx - w, cy - w), (cx - w, cy + w), (cx, cy), (cx, cy)]
        props += [(cx + w + 1, cy), (cx, cy - w - 1), (cx - w - 1, cy + w + 1)]
        # In the window only if four times a component is cut to 16 bits.
        props += [(cx + 16384, cy), (cx, cy - 16384), (cx - 16384, cy + 16384)]
    props += [(LEAST, LEAST), (GREATEST, GREATEST), (LEAST, GREATEST), (GREATEST, 0), (0, LEAST)]
    props += [near(rng, rng.choice(centres), w + w // 2) for _ in range(64)]
    return props[:64]


def proposed(seed, motion, n, m, w, **changes):
    """A job of noise with proposals: the motion, not near the centres, is the last of them."""
    rng = random.Random(seed)
    pred = [near(rng, (motion[0] - 3 * w, motion[1] + 3 * w), w) for _ in range(n)]
    centres = [(model.centre(px), model.centre(py)) for px, py in pred]
    props = some_proposals(rng, centres, w)
    rng.shuffle(props)
    props[m - 1] = (motion[0] // 4, motion[1] // 4)
    return seen(seed, motion, noise, shown=n - 1, n=n, m=m, w=w, pred=pred, props=props[:m],
                **changes)


# Jobs whose costs are laid out.

def way(*counted):
    """Vectors from (0, 0) on, one after another: (count, horizontal, vertical) of equal steps."""
    vectors = [(0, 0)]
    for count, dx, dy in counted:
        for _ in range(count):
            x, y = vectors[-1]
            vectors.append((x + dx, y + dy))
    return vectors


def areas(vectors, levels, bw=4, bh=4, w=64):
    """A job with a black block, and vectors that lead to areas of the block's size.

    Each area has its level and is drawn over those before it. All else is white.
    """
    width = height = 144
    left = top = 64
    reference = flat(255, width * height)
    for (x, y), level in zip(vectors, levels, strict=True):
        reference = with_rows(reference, width, left + x, top + y, [flat(level, bw)] * bh)
    return make(
        width=width, height=height, n=1, m=0, left=left, top=top, bw=bw, bh=bh, qp=0, w=w,
        pred=[(0, 0)], samples=flat(0, width * height) + reference)


def fall(vectors, **block):
    """Costs fall a little from vector to vector."""
    return areas(vectors, range(60, 60 - len(vectors), -1), **block)


def fork(ends):
    """Costs fall to a point of the fifth ring, then by the same to each end, an offset from it."""
    x, y = 20, 10
    # The point's area lies over a part of each end's.
    free = [16 - (4 - abs(dx)) * (4 - abs(dy)) for dx, dy in ends]
    vectors = [(0, 0), *((x + dx, y + dy) for dx, dy in ends), (x, y)]
    return areas(vectors, [90, *(60 - 40 // samples for samples in free), 60], w=24)


# The few jobs.

def worked():
    """The worked examples of docs/JOB.md."""
    yield "flat", make(
        n=1, m=0, qp=30, w=4, pred=[(0, 0)], samples=flat(100, 512), **ONE_BLOCK)
    yield "flat, two pictures", make(
        n=2, m=0, qp=30, w=4, pred=[(1, 2), (-3, 6)],
        samples=flat(100, 512) + flat(101, 256), **ONE_BLOCK)


def each_shape():
    """Each shape once: jobs in which a wrong order of offsets or one wrong sample shows."""
    for *block, seed, motion, texture, n, shown, dirt, w, qp in (
            (16, 16, 10085, (40, -18), smooth, 3, 2, 1, 16, 2),
            (16, 8, 10152, (5, -55), periodic, 3, 0, 2, 16, 0),
            (8, 16, 10223, (-42, -46), cone, 2, 0, 2, 12, 17),
            (8, 8, 10364, (21, -9), cone, 2, 1, 1, 12, 4),
            (8, 4, 10402, (43, 4), two(0, 255), 3, 2, 0, 8, 2),
            (4, 8, 10583, (57, 7), two(100, 103), 3, 2, 0, 8, 4),
            (4, 4, 10680, (-3, 25), smooth, 2, 0, 1, 12, 6)):
        yield "shape {}x{}".format(*block), seen(
            seed, motion, texture, shown=shown, dirt=dirt, n=n, w=w, qp=qp, **last(*block))


def of_each_kind():
    yield "16 pictures", seen(
        1, (8, -4), noise, shown=15, n=16, w=4, qp=10, width=16, height=16, **first(4, 8))
    yield "W 64", seen(
        2, (256, -256), noise, dirt=2, n=1, w=64, qp=34, pred=[(-1, 1)],
        width=144, height=144, left=64, top=64, bw=4, bh=4)
    yield "pictures alike", seen(
        3, (4, 4), two(100, 101), alike=True, n=3, w=8, qp=0, pred=[(4, 4)] * 3, **last(8, 4))
    yield "black against white", make(
        n=3, m=0, w=4, qp=51, pred=[(2, -2)] * 3, samples=flat(0, 256) + flat(255, 3 * 256),
        **ONE_BLOCK)
    yield "windows outside the pictures", seen(
        4, (0, 0), n=4, w=8, qp=51, **last(8, 16),
        pred=[(-4096, 4096), (4096, -4096), (4095, 4093), (-4094, -4095)])
    yield "64 proposals", proposed(5, (40, -28), n=2, m=64, w=12, **last(16, 8))
    yield "long walks", fall(way((20, 1, 2), *[(1, 1, 0), (1, 0, 1)] * 8))
    yield "fork", fork(HEXAGON[2:4])


def some_refused():
    yield "no bytes", b""
    yield "width before height", make(width=24, height=0)
    yield "n", make(n=-1)
    yield "m before length", make(m=65)[:-1]
    yield "length", make()[:-1]
    yield "shape before place", make(bw=16, bh=4, left=1)
    yield "place", make(left=-16)
    yield "QP before W", make(qp=52, w=6)
    yield "W before predicted", make(w=68, pred=[(4097, 0)] * 2)
    yield "predicted", make(pred=[(0, 4096), (4, -4097)])


def few_jobs():
    """(label, job) pairs that are always run."""
    return itertools.chain(worked(), each_shape(), of_each_kind(), some_refused())


# The many jobs.

def shapes():
    """Each shape over each texture."""
    rng = random.Random(11)
    for i, ((bw, bh), texture) in enumerate(itertools.product(model.SHAPES, TEXTURES)):
        n = rng.randint(1, 3)
        motion = rng.randint(-60, 60), rng.randint(-60, 60)
        yield f"shape {bw}x{bh}, texture {i % len(TEXTURES)}", seen(
            100 + i, motion, texture, n=n, shown=rng.randrange(n), dirt=rng.randrange(4),
            qp=rng.randint(0, 51), w=4 * rng.randint(2, 5), **last(bw, bh))


def counts():
    """Each number of pictures, the block shown in the last."""
    for n in range(1, 17):
        yield f"n {n}", seen(
            n, (7 - n, 2 * n - 9), TEXTURES[n % 2], shown=n - 1, n=n, w=4, qp=3 * n, dirt=n % 4,
            width=16, height=16, **first(*model.SHAPES[3 + n % 4]))


def ranges():
    """Each range, with motion to a corner of the window and to the inside."""
    for w in range(4, 65, 4):
        for motion in ((4 * w, -4 * w), (2 * w + 1, w + 2)):
            yield f"W {w}, motion {motion}", seen(
                w, motion, (smooth, cone, slope)[w % 3], n=1, w=w, qp=w // 2, pred=[(1, -2)],
                dirt=1, width=128, height=128, left=64, top=64, bw=8, bh=4 if w > 32 else 8)


def each_qp():
    for qp in range(52):
        n = 1 + qp % 3
        yield f"QP {qp}", seen(
            qp, (qp - 20, 9 - qp), n=n, shown=qp % n, w=8, qp=qp, dirt=qp % 5, reach=20,
            **last(4, 8))


def far():
    """Windows at their farthest, at the border of the pictures, and long pictures."""
    for px, py in itertools.product((-4096, -4095, 4094, 4096), (-4096, 3, 4096)):
        yield f"predicted {px},{py}", seen(
            px + py, (px, py), noise, n=2, w=8, qp=(px + py) % 52, pred=[(px, py), (-px, py)],
            dirt=2, **last(8, 8))
    for x, y in itertools.product((-1, 0, 1), repeat=2):
        motion = 4 * (BASE["width"] + 3) * x + 1, 4 * (BASE["height"] + 3) * y + 2
        yield f"border {x},{y}", seen(x + 3 * y, motion, n=1, w=12, qp=12)
    yield "widest", seen(
        5, (-700, -18), noise, n=1, w=12, dirt=1, width=1920, height=16, left=1904, top=0)
    yield "highest", seen(
        6, (-9, -2210), n=1, w=12, dirt=1, width=16, height=1920, left=0, top=1904)


def walks():
    """Long walks, and walks that come to two vectors of equal cost."""
    for sx, sy in itertools.product((1, -1), repeat=2):
        stairs = [(1, sx, 0), (1, 0, sy)] * 8
        for bw, bh in ((4, 4), (8, 16)):
            yield f"walk {sx},{sy}, {bw}x{bh}", fall(
                way((20, sx, 2 * sy), *stairs), bw=bw, bh=bh)
            yield f"walk with turns {sx},{sy}, {bw}x{bh}", fall(
                way((6, sx, 2 * sy), (12, 2 * sx, 0), (9, -sx, 2 * sy)), bw=bw, bh=bh)

    for pattern in (HEXAGON, DIAMOND):
        for ends in zip(pattern, pattern[1:]):
            yield f"fork {ends}", fork(ends)


def proposals():
    for i, (n, m, w) in enumerate((
            (1, 64, 8), (2, 64, 16), (3, 64, 4), (4, 33, 20), (1, 1, 12), (5, 64, 8), (2, 7, 64))):
        yield f"proposals, n {n} m {m} W {w}", proposed(
            20 + i, (4 * (3 + 9 * i), 4 * (5 - 7 * i)), n, m, w, qp=7 * i, **last(*model.SHAPES[i]))
    props = [(LEAST, LEAST), (GREATEST, GREATEST), (16384, 16384), (-16384, 0), (0, 16384)]
    for px, py in ((4096, -4096), (-4096, 4096), (0, 0)):
        yield f"far proposals, predicted {px},{py}", seen(
            30, (px, py), n=2, m=5, w=16, pred=[(px, py), (py, px)], props=props, **last(4, 4))


def ties():
    """Equal costs in a picture and between pictures."""
    textures = two(100, 101), periodic, slope, even(7)
    blocks = (4, 4), (8, 4), (4, 8), (16, 16)
    for i, (texture, block) in enumerate(itertools.product(textures, blocks)):
        n = 2 + i % 3
        yield f"alike {i}", seen(
            40 + i, (4 * (i - 8), 4 * (5 - i)), texture, n=n, alike=True, w=12, qp=i % 6,
            pred=[(3 - i, i)] * n, **last(*block))
    for value, other in ((0, 255), (255, 0), (0, 0), (255, 255), (128, 129)):
        samples = flat(value, 256) + flat(other, 5 * 256)
        for qp, p in itertools.product((0, 26, 51), (2, -4)):
            yield f"{value} against {other}, QP {qp}, predicted {p}", make(
                n=5, m=0, qp=qp, w=4, pred=[(p, -p)] * 5, samples=samples, **ONE_BLOCK)


def drawn(count=60):
    """Drawn jobs, shapes in turn."""
    rng = random.Random(12)
    for i in range(count):
        bw, bh = model.SHAPES[i % len(model.SHAPES)]
        w = rng.choice((4, 8, 12, 16, 20, 24, 28))
        n = rng.randint(1, 8 if w < 12 else 2)
        m = rng.choice((0, 0, 5, 40))
        width, height = 16 * rng.randint(1, 5), 16 * rng.randint(1, 5)
        motion = near(rng, (0, 0), rng.choice((6, 4 * w, 4 * max(width, height))))
        yield f"drawn {i}", seen(
            1000 + i, motion, rng.choice(TEXTURES), shown=rng.randrange(n),
            dirt=rng.choice((0, 0, 1, 5, 30)), alike=rng.random() < 0.2,
            reach=rng.choice((3, w, 4 * w)), width=width, height=height, n=n, m=m,
            left=random_place(rng, bw, width), top=random_place(rng, bh, height), bw=bw, bh=bh,
            qp=rng.choice((0, 3, rng.randint(0, 51))), w=w,
            props=[near(rng, (motion[0] // 4, motion[1] // 4), w) for _ in range(m)])


def largest():
    yield "16 pictures, W 64", seen(
        7, (100, 77), noise, shown=15, n=16, w=64, qp=20, width=32, height=16, **first(4, 4))
    yield "16x16, W 64", seen(8, (-201, 90), n=1, w=64, dirt=3, reach=180)


def refused():
    """The refused jobs of price_jobs.py, all pairs of faults among them."""
    for label, job in itertools.chain(
            price_jobs.sizes_and_counts(), price_jobs.lengths(), price_jobs.blocks(),
            price_jobs.settings(), price_jobs.predicted_vectors(), price_jobs.precedence()):
        try:
            opening, _ = book.read_job(job)
            book.vet_opening(*opening)
        except model.Refused:
            yield label, job


def more_jobs():
    """(label, job) pairs that --all adds to the few."""
    return itertools.chain(
        shapes(), counts(), ranges(), each_qp(), far(), walks(), proposals(), ties(), drawn(),
        largest(), refused())


# Arguments.

HELP = (["--help"], ["-h"])
BAD_ARGUMENTS = (["0"], ["0", "0", "0"], ["help"], ["--all"], [""], ["-"], ["0", "--help"])


def agrees(program, label, job, pieces):
    """Compares one run with the book."""
    return same(label, job, (book.seek(job).encode(), 0, b""), run(program, pieces))


def helps(program, words):
    """Whether the arguments get a text that says how the program is called."""
    found, status, told = run(program, (make(),), words)
    if (b"usage" in found.lower(), status, told) == (True, 0, b""):
        return True
    print(f"arguments {words}: {found!r}, exit status {status}, standard error {told!r}")
    return False


def refuses(program, words):
    """Whether the arguments end with status 1 and one line on standard error."""
    found, status, told = run(program, (make(),), words)
    is_line = told.startswith(b"Error: ") and told.find(b"\n") == len(told) - 1
    if (found, status, is_line) == (b"", 1, True):
        return True
    print(f"arguments {words}: {found!r}, exit status {status}, standard error {told!r}")
    return False


def main():
    options = sys.argv[2:]
    if len(sys.argv) < 2 or options not in ([], ["--all"]):
        sys.exit("usage: seek_jobs.py PROGRAM [--all]")
    program = sys.argv[1]
    jobs = [(label, job, (job,)) for label, job in few_jobs()]
    if options:
        jobs += [(label, job, (job,)) for label, job in more_jobs()]
        jobs += price_jobs.jobs_in_pieces()
    results = [agrees(program, *entry) for entry in jobs]
    results += [helps(program, words) for words in HELP]
    results += [refuses(program, words) for words in BAD_ARGUMENTS]
    agreed, differing = results.count(True), results.count(False)
    print(f"{agreed} agree, {differing} differ")
    sys.exit(1 if differing else 0)


if __name__ == "__main__":
    main()
