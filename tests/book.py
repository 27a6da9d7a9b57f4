"""Model of `seek`: the book, which keeps and prices every candidate of a search.

Written from the definitions alone, in exact integers. Every cost is worked out over all
strips; how many of them a trial reads is counted afterwards. The vetting of jobs, rates
and measures are those of model.py, samples those of interpolator.py, offsets and the
order of rounds those of pattern_tables.py.

Run as a program, it checks itself.
"""
import functools
import itertools
import math
import random
import struct
from operator import itemgetter, sub

import interpolator
import model
import pattern_tables
from model import Refused
from pattern_tables import DIAMOND, HEXAGON, cross, eight, rings, square

MOST_TRIALS = 1_000_000  # no call begins after so many
MOST_OFFERED = 64        # vectors of one offer
WIDEST = 16              # samples of a strip's row

rate_part = functools.cache(model.rate_part)
round_of = functools.cache(pattern_tables.full_round)


def over_rows(cost):
    """A measure of two strips, from the cost of the rows of their differences."""
    return lambda first, second: cost([list(map(sub, *rows)) for rows in zip(first, second)])


SAD, SSD, SATD = map(over_rows, (model.sad, model.ssd, model.satd))


class Pictures:
    """A list of reference pictures.

    A search asks for n, width, height and strips; whatever answers these can take its place.
    """

    def __init__(self, width, height, planes):
        self.n, self.width, self.height = len(planes), width, height
        self.planes = planes
        self.cells = {}  # the sixteen samples of each cell that was asked for
        # Rows with the border on both sides, as wide as the widest strip.
        self.rows = [
            [plane[k : k + 1] * WIDEST + plane[k : k + width]
             + plane[k + width - 1 : k + width] * WIDEST
             for k in range(0, width * height, width)]
            for plane in planes
        ]

    def sample(self, r, x, y):
        """The sample of picture r at (x, y) in quarter samples."""
        cell = (r, x // 4, y // 4)
        if cell not in self.cells:
            self.cells[cell] = interpolator.positions(
                self.planes[r], self.width, self.height, x // 4, y // 4)
        return self.cells[cell][interpolator.POSITION[x % 4][y % 4]]

    def whole_row(self, r, column, row, width):
        """Whole samples side by side. Farther out than a strip is wide, they stay the same."""
        row = min(max(row, 0), self.height - 1)
        first = min(max(column, -WIDEST), self.width) + WIDEST
        return self.rows[r][row][first : first + width]

    def strip(self, r, x, y, width):
        """Four rows of samples of picture r, the first at (x, y), each a whole sample apart."""
        if x % 4 == 0 and y % 4 == 0:
            return [self.whole_row(r, x // 4, y // 4 + k, width) for k in range(4)]
        return [[self.sample(r, x + 4 * i, y + 4 * k) for i in range(width)] for k in range(4)]


def vet_opening(current, bw, bh, left, top, pictures, _, qp, w, across, down):
    """Refuses arguments that no search opens with."""
    width, height, _ = current
    if not len(across) == len(down) == pictures.n:
        raise Refused(3, 4, max(len(across), len(down)))
    # Rows 5 and 6, with settings that are allowed.
    model.vet_settings(width, height, left, top, bw, bh, 0, 4, [])
    if pictures.width != width:
        raise Refused(7, 2, pictures.width)
    if pictures.height != height:
        raise Refused(7, 2, pictures.height)
    model.vet_settings(width, height, left, top, bw, bh, qp, w, zip(across, down))


def strips_read(part, costs, bound):
    """The fewest strips, from the top, at which the total reaches the bound, else all."""
    for q in range(len(costs)):
        if part + sum(costs[:q]) >= bound:
            return q
    return len(costs)


class Book:
    """A search: every candidate tried in its stage, and the totals of both stages.

    Each call answers as the engine's, or raises Refused and changes nothing. Vectors and
    offsets are (horizontal, vertical) pairs in the stage's unit, a pattern a list of offsets.
    """

    def __init__(self, current, bw, bh, left, top, pictures, measure, qp, w, across, down):
        """An opening whose arguments are vetted."""
        width, _, samples = current
        rows = [samples[k * width + left : k * width + left + bw] for k in range(top, top + bh)]
        self.block = [rows[k : k + 4] for k in range(0, bh, 4)]
        self.bw, self.left, self.top = bw, left, top
        self.pictures, self.qp = pictures, qp
        self.predicted = list(zip(across, down))
        self.trials = self.strips = 0
        centres = [(model.centre(px), model.centre(py)) for px, py in self.predicted]
        self.begin(measure, 4, w, dict(enumerate(centres)))
        self.enter(0, centres[0])

    @classmethod
    def open(cls, *arguments):
        """The opening. The current picture is its width, its height and its samples."""
        vet_opening(*arguments)
        return cls(*arguments)

    def begin(self, measure, unit, reach, centres):
        """Begins a stage. The pictures that may be named are those that have a centre."""
        self.measure, self.unit = measure, unit
        self.reach, self.centres = reach, centres
        self.kept = []  # cost, picture and vector of each candidate, in order
        self.least = math.inf

    def parts(self, picture, vector):
        """The rate part of a candidate and the costs of its strips."""
        x, y = (self.unit * component for component in vector)
        bits = model.rate(self.pictures.n, picture, (x, y), self.predicted[picture])
        x, y = 4 * self.left + x, 4 * self.top + y
        costs = [
            self.measure(strip, self.pictures.strip(picture, x, y + 16 * k, self.bw))
            for k, strip in enumerate(self.block)
        ]
        return rate_part(self.qp, bits), costs

    def enter(self, picture, vector):
        """Enters a candidate. All strips of a stage's first count: it has no bound."""
        part, costs = self.parts(picture, vector)
        cost = part + sum(costs)
        self.trials += 1
        self.strips += strips_read(part, costs, self.least)
        self.kept.append((cost, picture, vector))
        self.least = min(self.least, cost)

    def held(self):
        """Cost, picture and vector of the first candidate of least cost."""
        return min(self.kept, key=itemgetter(0))

    def enter_inside(self, picture, vectors):
        """Enters those of the vectors that are in the picture's window; how many."""
        cx, cy = self.centres[picture]
        inside = [(x, y) for x, y in vectors
                  if abs(x - cx) <= self.reach and abs(y - cy) <= self.reach]
        for vector in inside:
            self.enter(picture, vector)
        return len(inside)

    def vet_picture(self, picture):
        if picture not in self.centres:
            raise Refused(11, 5, picture)

    def vet_trials(self):
        if self.trials >= MOST_TRIALS:
            raise Refused(13, 5, self.trials)

    def try_vector(self, picture, vector):
        """Whether the vector was better."""
        self.vet_picture(picture)
        for component, centre in zip(vector, self.centres[picture]):
            if abs(component - centre) > self.reach:
                raise Refused(12, 5, component)
        self.vet_trials()
        before = self.least
        self.enter(picture, tuple(vector))
        return self.least < before

    def offer(self, picture, across, down):
        """How many were entered."""
        longer = max(len(across), len(down))
        if len(across) != len(down) or longer > MOST_OFFERED:
            raise Refused(3, 5, longer)
        self.vet_picture(picture)
        self.vet_trials()
        return self.enter_inside(picture, zip(across, down))

    def sweep(self, pattern):
        """How many were entered."""
        self.vet_trials()
        return self.sweep_unvetted(pattern)

    def sweep_unvetted(self, pattern):
        _, picture, (x, y) = self.held()
        return self.enter_inside(picture, [(x + dx, y + dy) for dx, dy in pattern])

    def walk(self, pattern):
        """How many sweeps it took."""
        self.vet_trials()
        for sweeps in itertools.count(1):
            before = self.held()
            self.sweep_unvetted(pattern)
            if self.held() == before:
                return sweeps

    def full_round(self, picture):
        """How many were entered."""
        self.vet_picture(picture)
        self.vet_trials()
        cx, cy = self.centres[picture]
        return self.enter_inside(picture, [(cx + dx, cy + dy) for dx, dy in round_of(self.reach)])

    def hand_over(self, measure):
        """Begins the second stage."""
        assert self.unit == 4
        _, picture, (x, y) = self.held()
        self.begin(measure, 1, 3, {picture: (4 * x, 4 * y)})
        self.enter(picture, (4 * x, 4 * y))

    def close(self):
        """The report: picture, X and Y in quarter samples, cost, trials, strips."""
        cost, picture, (x, y) = self.held()
        return picture, self.unit * x, self.unit * y, cost, self.trials, self.strips


def full(opening, _, measure):
    """The report of the exhaustive recipe."""
    book = Book.open(*opening)
    for r in range(book.pictures.n):
        book.full_round(r)
    return refined(book, measure)


def fast(opening, proposals, measure):
    """The report of the fast recipe."""
    book = Book.open(*opening)
    for r in range(1, book.pictures.n):
        book.try_vector(r, book.centres[r])
    for r in range(book.pictures.n):
        book.offer(r, [x for x, _ in proposals], [y for _, y in proposals])
    w = book.reach
    for pattern in (cross(w), square(), rings(w)):
        book.sweep(pattern)
    for pattern in (HEXAGON, DIAMOND):
        book.walk(pattern)
    return refined(book, measure)


def refined(book, measure):
    """The second stage of both recipes."""
    book.hand_over(measure)
    for distance in (2, 1):
        book.sweep(eight(distance))
    return book.close()


def read_job(job):
    """The arguments of the opening under SAD, and the proposals. Settings are not vetted."""
    width, height, n, m, left, top, bw, bh, qp, w = model.vet_head(job)
    numbers = struct.unpack_from(f"<{2 * (n + m)}h", job, model.HEAD)
    across, down = numbers[: n + m], numbers[n + m :]
    area = width * height
    samples = job[model.HEAD + 4 * (n + m) :]
    planes = [samples[k * area : (k + 1) * area] for k in range(n + 1)]
    opening = ((width, height, planes[0]), bw, bh, left, top,
               Pictures(width, height, planes[1:]), SAD, qp, w, across[:n], down[:n])
    return opening, list(zip(across[n:], down[n:]))


def seek(job):
    """All that `seek` prints for the bytes of a job."""
    try:
        opening, proposals = read_job(job)
        reports = [(recipe.__name__, *recipe(opening, proposals, SATD)) for recipe in (full, fast)]
    except Refused as refused:
        return refused.text
    return "".join(" ".join(map(str, report)) + "\n" for report in reports)


class Search(Book):
    """A search that holds one candidate only, and reads no strip once it is no better."""

    def enter(self, picture, vector):
        total, costs = self.parts(picture, vector)
        read = 0
        while total < self.least and read < len(costs):
            total += costs[read]
            read += 1
        self.trials += 1
        self.strips += read
        if total < self.least:
            self.least, self.kept = total, [(total, picture, vector)]


def check_strips(rng):
    """Strips are the model's samples, near the picture and far out."""
    width, height, n = 32, 16, 3
    planes = [rng.randbytes(width * height) for _ in range(n)]
    pictures = Pictures(width, height, planes)
    for reach in (30, 90, 20000) * 100:
        r, across, unit = rng.randrange(n), rng.choice((4, 8, 16)), rng.choice((1, 4))
        x, y = unit * rng.randint(-reach, reach), unit * rng.randint(-reach, reach)
        rows = [
            [model.list_sample(planes[r], width, height, x + 4 * i, y + 4 * k)
             for i in range(across)] for k in range(4)]
        assert [list(row) for row in pictures.strip(r, x, y, across)] == rows


def check_counts():
    assert strips_read(14, [0, 0], 14) == 0
    assert strips_read(13, [0, 1, 5], 14) == 2
    assert strips_read(13, [0, 0, 0], 14) == 3
    assert strips_read(900, [1, 2, 3], math.inf) == 3
    flat = bytes([100]) * 256
    job = model.pack(16, 16, 1, 0, 0, 0, 16, 16, 30, 4, [(0, 0)], [], flat, [flat])
    assert seek(job) == "full 0 0 0 14 99 8\nfast 0 0 0 14 75 8\n"
    assert seek(job[:-1]) == "refused 4 6 535\n"


def drawn_opening(rng):
    n, (bw, bh) = rng.randint(1, 3), rng.choice(model.SHAPES)
    planes = [bytes(rng.choices((90, 91, 93), k=256)) for _ in range(n + 1)]
    across, down = ([rng.randint(-40, 40) for _ in range(n)] for _ in "xy")
    return ((16, 16, planes[0]), bw, bh, 16 - bw, 16 - bh, Pictures(16, 16, planes[1:]),
            rng.choice((SAD, SSD, SATD)), rng.choice((0, 9, 30)), rng.choice((4, 8)), across, down)


def drawn_call(rng, book):
    """The name of a call and its arguments. Some are refused."""
    picture = rng.randrange(book.pictures.n + 1)
    cx, cy = rng.choice(list(book.centres.values()))
    near = range(-book.reach, book.reach + 2)
    m = rng.choice((0, 5, 64, 65))
    across = [cx + dx for dx in rng.choices(near, k=m)]
    down = [cy + dy for dy in rng.choices(near, k=m + rng.choice((0, 0, 0, 1)))]
    pattern = rng.choice((DIAMOND, HEXAGON, square(), cross(8), rings(8), eight(1), eight(2), []))
    return rng.choice((
        ("try_vector", picture, (cx + rng.choice(near), cy + rng.choice(near))),
        ("offer", picture, across, down), ("sweep", pattern), ("walk", pattern),
        ("full_round", picture)))


def answer(call, *arguments):
    """What a call answers, or what it is refused with."""
    try:
        return call(*arguments)
    except Refused as refused:
        return refused.text


def check_calls(rng):
    """The book and the search answer and report the same, whatever is called."""
    for _ in range(40):
        opening = drawn_opening(rng)
        book, search = Book.open(*opening), Search.open(*opening)
        for i in range(16):
            if i == 8:
                book.hand_over(SATD)
                search.hand_over(SATD)
            name, *arguments = drawn_call(rng, book)
            of_book, of_search = (answer(getattr(one, name), *arguments) for one in (book, search))
            assert (of_book, book.close()) == (of_search, search.close())


def check_openings():
    """Each row of an opening, and the lower of two."""
    flat = bytes(256)
    lawful = dict(
        current=(16, 16, flat), bw=16, bh=16, left=0, top=0,
        pictures=Pictures(16, 16, [flat, flat]), measure=SAD, qp=28, w=4,
        across=[0, 0], down=[0, 0])
    wide, high = Pictures(32, 16, [2 * flat] * 2), Pictures(16, 32, [2 * flat] * 2)
    for row, layer, value, changes in (
            (3, 4, 2, dict(across=[0], bh=4)),
            (3, 4, 1, dict(across=[0], down=[0])),
            (5, 3, 16, dict(bh=4, left=1)),
            (6, 3, -16, dict(left=-16, pictures=wide)),
            (7, 2, 32, dict(pictures=wide, qp=52)),
            (7, 2, 32, dict(pictures=high, w=6)),
            (8, 4, 52, dict(qp=52, w=6)),
            (9, 4, 6, dict(w=6, across=[4097, 0])),
            (10, 4, -4097, dict(across=[0, 4098], down=[-4097, 0]))):
        opening = {**lawful, **changes}
        assert answer(Book.open, *opening.values()) == f"refused {row} {layer} {value}\n"
    return Book.open(*lawful.values())


def check_refusals(book):
    """Each row of a call, and the lower of two. The book has two pictures and W 4."""
    def refused(row, value, call, *arguments):
        before = book.close()
        assert answer(call, *arguments) == f"refused {row} 5 {value}\n"
        assert book.close() == before

    refused(11, 2, book.try_vector, 2, (9, 9))
    refused(12, 5, book.try_vector, 1, (5, -5))
    refused(12, -5, book.try_vector, 0, (4, -5))
    refused(3, 65, book.offer, 9, [0] * 65, [0] * 65)
    refused(3, 2, book.offer, 0, [0], [0, 0])
    refused(11, 2, book.offer, 2, [], [])
    refused(11, 2, book.full_round, 2)

    book.trials = MOST_TRIALS - 1
    assert (book.walk([]), book.offer(0, [5], [0])) == (1, 0)
    assert (book.full_round(1), book.trials) == (81, MOST_TRIALS + 80)
    refused(12, 5, book.try_vector, 0, (5, 0))
    refused(11, 2, book.full_round, 2)
    for call, *arguments in (
            (book.try_vector, 0, (0, 0)), (book.offer, 0, [], []), (book.sweep, []),
            (book.walk, []), (book.full_round, 0)):
        refused(13, MOST_TRIALS + 80, call, *arguments)

    book.hand_over(SATD)
    refused(11, 1, book.full_round, 1)
    refused(12, -4, book.try_vector, 0, (0, -4))
    refused(13, MOST_TRIALS + 81, book.try_vector, 0, (0, -3))


def self_check():
    rng = random.Random(1)
    check_strips(rng)
    check_counts()
    check_calls(rng)
    check_refusals(check_openings())


if __name__ == "__main__":
    self_check()
    print("book: all checks hold")
