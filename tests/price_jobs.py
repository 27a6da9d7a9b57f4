"""Runs a `price` program on jobs made in memory and compares it with the model.

    python3 tests/price_jobs.py PROGRAM

Standard output and the exit status have to agree. Some jobs are priced at one named
vector; where that has no price, one line on standard error says why.
"""
import itertools
import random
import subprocess
import sys
import time

sys.dont_write_bytecode = True
import model  # noqa: E402

LEAST, GREATEST = -32768, 32767  # of a signed 16-bit number
NOISE = random.Random(1).randbytes(model.LONGEST)

# A well-formed head; each job below says what it changes.
BASE = dict(width=48, height=32, n=2, m=1, left=16, top=16, bw=16, bh=16, qp=28, w=16)
ONE_BLOCK = dict(width=16, height=16, left=0, top=0)


def make(pred=None, props=None, samples=NOISE, **changes):
    """A job of the base head with changes.

    Arrays and planes are as long as the head states, where a job can be so long.
    """
    head = {**BASE, **changes}
    n, m = max(0, head["n"]), max(0, head["m"])
    area = max(0, head["width"]) * max(0, head["height"])
    if model.HEAD + 4 * (n + m) + area * (n + 1) > model.LONGEST:
        return model.pack(**head, pred=[], props=[], current=b"", refs=[])
    if pred is None:
        pred = [(5 * r - 7, 9 - 4 * r) for r in range(n)]
    if props is None:
        props = [(LEAST + i, GREATEST - i) for i in range(m)]
    planes = [samples[r * area : (r + 1) * area] for r in range(n + 1)]
    return model.pack(**head, pred=pred, props=props, current=planes[0], refs=planes[1:])


def flat(value, count):
    return bytes([value]) * count


def marked():
    yield "flat", make(
        n=1, m=0, qp=30, w=4, pred=[(0, 0)], samples=flat(100, 512), **ONE_BLOCK)
    yield "base", make()


def sizes_and_counts():
    for size in (LEAST, -16, 0, 15, 16, 17, 24, 1904, 1920, 1936, GREATEST):
        yield f"width {size}", make(**{**ONE_BLOCK, "width": size, "n": 1})
        yield f"height {size}", make(**{**ONE_BLOCK, "height": size, "n": 1})
    yield "last block of the widest plane", make(width=1920, height=16, n=1, left=1904, top=0)
    yield "last block of the highest plane", make(width=16, height=1920, n=1, left=0, top=1904)
    for n in (LEAST, -1, 0, 1, 2, 15, 16, 17, GREATEST):
        yield f"n {n}", make(n=n, **ONE_BLOCK)
    for m in (LEAST, -1, 0, 1, 63, 64, 65, GREATEST):
        yield f"m {m}", make(m=m, **ONE_BLOCK)


def lengths():
    job = make()
    for count in (0, 1, 2, 19, 20, 21, 23, 24, 32, len(job) - 1):
        yield f"first {count} bytes", job[:count]
    for count in (1, 2, 256, 1536):
        yield f"{count} bytes too many", job + bytes(count)

    # 65,536 bytes: the longest job.
    longest = make(width=80, height=48, n=16, m=43)
    yield f"longest, {len(longest)} bytes", longest
    yield "longest, one byte short", longest[:-1]
    for count in (65537, 65538, 70000, 131072):
        yield f"{count} bytes", longest.ljust(count, b"\0")
    yield "65536 bytes, less stated", job.ljust(65536, b"\0")
    yield "65536 bytes, more stated", make(width=1920, height=1920).ljust(65536, b"\0")

    # The stated length agrees with the job's only modulo 65,536.
    for width, height, n in ((256, 256, 1), (512, 128, 15), (1024, 64, 16)):
        head = dict(width=width, height=height, n=n, m=0)
        arrays = bytes(4 * n)
        yield f"length modulo 65536, {width}x{height} n {n}", make(**head) + arrays
    yield "19 bytes, wrong width", make(width=15)[:19]
    yield "65537 bytes, wrong width", make(width=15).ljust(65537, b"\0")
    yield "65536 bytes, wrong width", make(width=15).ljust(65536, b"\0")


def places(extent, size):
    """Good and bad lefts (or tops) of a block in a plane."""
    half, last = extent // 2, size - extent
    return sorted({LEAST, -extent, -1, 0, 1, half, extent, last, last + half, size,
                   GREATEST + 1 - extent, GREATEST})


def blocks():
    extents = (-16, 0, 4, 8, 12, 16, 32)
    others = ((16, 1), (1, 16), (2, 2), (16, 15), (8, 17), (16, LEAST), (LEAST, 16),
              (GREATEST, GREATEST), (48, 32), (4, 2), (-8, -8), (-1, -1))
    for bw, bh in (*itertools.product(extents, extents), *others):
        yield f"shape {bw}x{bh}", make(bw=bw, bh=bh)

    for bw, bh in model.SHAPES:
        for left in places(bw, BASE["width"]):
            yield f"left {left}, {bw}x{bh}", make(left=left, top=0, bw=bw, bh=bh)
        for top in places(bh, BASE["height"]):
            yield f"top {top}, {bw}x{bh}", make(left=0, top=top, bw=bw, bh=bh)
    for left, top in ((-16, -32), (1, -16), (48, 32), (0, 32), (32, 16), (32, 17)):
        yield f"place {left},{top}", make(left=left, top=top)


def settings():
    for qp in (LEAST, -1, 0, 51, 52, GREATEST):
        yield f"QP {qp}", make(qp=qp)
    for w in (LEAST, -4, 0, 2, 3, 4, 5, 8, 60, 62, 64, 65, 66, 68, GREATEST):
        yield f"W {w}", make(w=w)


def predicted_vectors():
    inside = [(0, 1), (-2, 3), (4, -5)]
    for r, axis, p in itertools.product(range(3), (0, 1), (-4097, -4096, 4096, 4097)):
        pred = [list(vector) for vector in inside]
        pred[r][axis] = p
        yield f"predicted {p}, picture {r}, axis {axis}", make(n=3, m=2, pred=pred)

    far = {
        "vertical of 0 before horizontal of 1": [(0, 4097), (-5000, 0), (0, 0)],
        "horizontal of 0 before its vertical": [(-4097, 5000), (0, 0), (0, 0)],
        "horizontal of 1 before vertical of 1": [(0, 0), (GREATEST, LEAST), (0, 0)],
        "vertical of 1 before horizontal of 2": [(4096, -4096), (-4096, LEAST), (4097, 0)],
        "all wrong": [(4097, 4098), (4099, 4100), (4101, 4102)],
    }
    for label, pred in far.items():
        yield label, make(n=3, m=2, pred=pred)
    last = [(0, 0)] * 15 + [(0, -4097)]
    yield "vertical of picture 15", make(n=16, m=0, pred=last, **ONE_BLOCK)
    props = [(4097, -4097), (LEAST, 0), (0, GREATEST)]
    yield "far proposals", make(n=1, m=3, pred=[(1, 1)], props=props)


def precedence():
    """All pairs of faults in one job: the earlier row wins."""
    faults = {
        "width": dict(width=24),
        "height": dict(height=40),
        "n low": dict(n=0),
        "n high": dict(n=17),
        "m low": dict(m=-1),
        "m high": dict(m=65),
        "length": dict(extra=1),
        "shape": dict(bw=16, bh=4),
        "left": dict(left=1),
        "top": dict(top=-16),
        "QP": dict(qp=52),
        "W": dict(w=6),
        "predicted": dict(pred=4097),
    }
    base = dict(width=32, height=32)
    for first, second in itertools.combinations(faults, 2):
        changes = {**base, **faults[second], **faults[first]}
        extra = changes.pop("extra", 0)
        wrong = changes.pop("pred", 0)
        n = changes.get("n", BASE["n"])
        job = make(pred=[(0, wrong)] * n, **changes)
        yield f"{first} and {second}", job + bytes(extra)


def rates():
    """Rates at every QP; centres about zero and the limits."""
    # Parts of a sample that give 16 pictures the rates 3, 5, 7 ... 19.
    parts = [(0, 0), (0, 0), (3, 0), (0, 1), (3, 1), (2, 3)] + [(2, 2)] * 10
    for qp in range(52):
        pred = [(4 * (qp - r) + u, 4 * (r - 9) + v) for r, (u, v) in enumerate(parts)]
        yield f"16 pictures at QP {qp}", make(
            n=16, m=0, qp=qp, pred=pred, samples=flat(7, 17 * 256), **ONE_BLOCK)
        yield f"1 picture at QP {qp}", make(
            n=1, m=0, qp=qp, pred=[(2, qp)], samples=flat(7, 2 * 256), **ONE_BLOCK)
    for start in (-4096, -16, -8, 0, 4081):
        components = range(start, start + 16)
        pred = list(zip(components, reversed(components)))
        yield f"centres from {start}", make(n=16, m=0, qp=51, pred=pred, **ONE_BLOCK)


def greatest_costs():
    """Costs past 16 bits: black against white at the greatest rates."""
    for block, reference in ((0, 255), (255, 0)):
        samples = flat(block, 256) + flat(reference, 16 * 256)
        yield f"{block} against {reference}", make(
            n=16, m=0, qp=51, pred=[(2, -2)] * 16, samples=samples, **ONE_BLOCK)


def random_planes(rng, width, height, count):
    """Noise, black and white, or a slope with noise."""
    total = width * height * count
    kind = rng.randrange(3)
    noise = rng.randbytes(total)
    if kind == 0:
        return noise
    if kind == 1:
        return bytes(255 * (v & 1) for v in noise)
    a, b = rng.randint(-6, 6), rng.randint(-6, 6)
    return bytes((a * (i % width) + b * (i // width) + v % 8) % 256 for i, v in enumerate(noise))


def random_place(rng, extent, size):
    """First, last or any place of a block in a plane."""
    last = size - extent
    return rng.choice((0, last, extent * rng.randint(0, last // extent)))


def random_jobs(count=156):
    """Well-formed jobs: each QP three times, shapes in turn."""
    rng = random.Random(2)
    for i in range(count):
        width, height = 16 * rng.randint(1, 4), 16 * rng.randint(1, 4)
        n = rng.choice((1, 1, 2, 3, rng.randint(4, 12)))
        m = rng.choice((0, 1, 3, rng.randint(0, 64)))
        bw, bh = model.SHAPES[i % len(model.SHAPES)]
        reach = rng.choice((4, 40, 4 * max(width, height), 4096))
        pred = [(rng.randint(-reach, reach), rng.randint(-reach, reach)) for _ in range(n)]
        props = [(rng.randint(LEAST, GREATEST), rng.randint(LEAST, GREATEST)) for _ in range(m)]
        yield f"random {i}", make(
            width=width, height=height, n=n, m=m, bw=bw, bh=bh,
            left=random_place(rng, bw, width), top=random_place(rng, bh, height),
            qp=i % 52, w=4 * rng.randint(1, 16), pred=pred, props=props,
            samples=random_planes(rng, width, height, n + 1))


def all_jobs():
    """All (label, job) pairs."""
    return itertools.chain(
        marked(), sizes_and_counts(), lengths(), blocks(), settings(),
        predicted_vectors(), precedence(), rates(), greatest_costs(), random_jobs())


def jobs_in_pieces():
    """(label, job, pieces): jobs that reach the program in several writes."""
    job = make()
    for cut in (1, 19, 20, 30, len(job) - 1):
        yield f"in two pieces, cut at {cut}", job, (job[:cut], job[cut:])
    yield "19 bytes in two pieces", job[:19], (job[:10], job[10:19])
    longest = make(width=80, height=48, n=16, m=43)
    yield "longest in two pieces", longest, (longest[:40000], longest[40000:])
    too_long = longest + b"\0"
    yield "too long by its last piece", too_long, (longest, b"\0")


def run(program, pieces, words=()):
    """Standard output, exit status and standard error of the program on a job in pieces.

    The words are its arguments.
    """
    process = subprocess.Popen([program, *words], bufsize=0, stdin=subprocess.PIPE,
                               stdout=subprocess.PIPE, stderr=subprocess.PIPE)
    try:
        for piece in pieces[:-1]:
            process.stdin.write(piece)
            process.stdin.flush()
            time.sleep(0.05)
    except BrokenPipeError:
        pass  # it has ended early; what it printed is compared all the same
    try:
        output, told = process.communicate(pieces[-1], timeout=20)
        return output, process.returncode, told
    except subprocess.TimeoutExpired:
        process.kill()
        output, told = process.communicate()
        return output, "none after 20 seconds", told


def named_vectors():
    """(label, job, (picture, x, y)): jobs with one vector named."""
    rng = random.Random(3)
    for i in range(60):
        bw, bh = model.SHAPES[i % len(model.SHAPES)]
        n = rng.choice((1, 2, 4))
        width, height = 16 * rng.randint(1, 3), 16 * rng.randint(1, 3)
        pred = [(rng.randint(-300, 300), rng.randint(-300, 300)) for _ in range(n)]
        job = make(
            width=width, height=height, n=n, m=1, bw=bw, bh=bh,
            left=random_place(rng, bw, width),
            top=random_place(rng, bh, height),
            qp=(7 * i) % 52, pred=pred, samples=random_planes(rng, width, height, n + 1))
        r = rng.randrange(n)
        reach = rng.choice((1, 3, 20, 261))
        x, y = (p + rng.randint(-reach, reach) for p in pred[r])
        yield f"named {i}", job, (r, x, y)
    for x, y in ((261, 0), (-261, 261), (262, 0), (0, -262), (0, 262)):
        job = make(pred=[(0, 0), (100, -100)])
        yield f"difference {x},{y}", job, (1, 100 + x, y - 100)
    far = make(n=1, m=0, pred=[(-4096, 4096)])
    yield "far out", far, (0, -4357, 4357)
    yield "too far out", far, (0, -4358, 4357)
    yield "farthest that may be named", far, (0, -4400, 4400)
    for r in (2, 3, 16, 65536):
        yield f"no picture {r}", make(), (r, 0, 0)
    yield "named in a refused job", make(qp=52), (0, 0, 0)
    yield "named past the pictures of a refused job", make(w=6), (9, 0, 0)


def bad_arguments():
    """Words that are refused before a job is read."""
    return (["0"], ["0", "0"], ["0", "0", "0", "0"], ["-1", "0", "0"], ["x", "0", "0"],
            ["0", "4401", "0"], ["0", "0", "-4401"], ["0", "1.5", "0"], ["0", "", "0"],
            ["0", "70000", "0"], ["0", "9999999999999999999999", "0"])


def same(label, job, expected, found):
    """Whether a run gave what was expected; prints the difference.

    Each is standard output, the exit status, and standard error or the number of its lines.
    """
    if found == expected:
        return True
    print(f"{label}, a job of {len(job)} bytes")
    for name, (output, status, told) in (("expected", expected), ("found", found)):
        print(f"  {name:8} {output!r}, exit status {status}, standard error {told!r}")
    return False


def agrees(program, label, job, pieces, named=None):
    """Compares one run with the model."""
    output, wanted = model.price(job, named)
    found, status, told = run(program, pieces, [str(word) for word in named or ()])
    return same(label, job, (output.encode(), wanted, wanted), (found, status, told.count(b"\n")))


def refuses(program, words):
    """Whether bad arguments end with status 1 and one line on standard error."""
    found, status, told = run(program, (make(),), words)
    if (found, status, told.count(b"\n")) == (b"", 1, 1):
        return True
    print(f"arguments {words}: {found!r}, exit status {status}, standard error {told!r}")
    return False


def main():
    if len(sys.argv) != 2:
        sys.exit("usage: price_jobs.py PROGRAM")
    program = sys.argv[1]
    whole = ((label, job, (job,)) for label, job in all_jobs())
    named = ((label, job, (job,), vector) for label, job, vector in named_vectors())
    jobs = itertools.chain(whole, jobs_in_pieces(), named)
    results = [agrees(program, *entry) for entry in jobs]
    results += [refuses(program, words) for words in bad_arguments()]
    passed = results.count(True)
    failed = results.count(False)
    print(f"{passed} passed, {failed} failed")
    sys.exit(1 if failed else 0)


if __name__ == "__main__":
    main()
