"""Makes a job with known motion, or the flat job.

    python3 examples/make_motion.py examples/motion.job
    python3 examples/make_motion.py --flat examples/flat.job

motion.job: 64x48 planes, a reference list of two pictures, a 16x16 block at
(32, 16), QP 28, W 16. All planes are cut from one smooth texture. The block's
true vector is (5, -3) whole samples, (20, -12) quarter samples, in picture 1.
Picture 0 shows the texture at another place under strong noise, so picture 1
is the better one. The predicted vectors lie near the true motion; of the
three proposals one is near and two are far.

flat.job: one 16x16 block at QP 30, W 4, in planes of 100 throughout.
"""
import struct
import sys

WIDTH, HEIGHT = 64, 48
MARGIN = 16                 # texture beyond the planes on each side
MOTION = (5, -3)            # whole samples, against picture 1
OTHER = (2, -1)             # the same for picture 0
STEP = 8                    # samples between the texture's lattice points


class Generator:
    """A small linear congruential generator: the same bytes everywhere."""

    def __init__(self, seed):
        self.state = seed

    def below(self, limit):
        self.state = (self.state * 1103515245 + 12345) % 2**31
        return (self.state >> 16) % limit


def texture(generator, width, height):
    """Random lattice points, straight lines between them."""
    columns, rows = width // STEP + 2, height // STEP + 2
    points = [[40 + generator.below(176) for _ in range(columns)] for _ in range(rows)]

    def value(x, y):
        i, u = divmod(x, STEP)
        k, v = divmod(y, STEP)
        above = points[k][i] * (STEP - u) + points[k][i + 1] * u
        below = points[k + 1][i] * (STEP - u) + points[k + 1][i + 1] * u
        return (above * (STEP - v) + below * v) // (STEP * STEP)

    return [[value(x, y) for x in range(width)] for y in range(height)]


def plane(generator, source, dx, dy, noise):
    """The texture moved by (dx, dy), with noise of up to that many levels."""
    samples = bytearray()
    for y in range(HEIGHT):
        for x in range(WIDTH):
            level = source[MARGIN + y + dy][MARGIN + x + dx]
            level += generator.below(2 * noise + 1) - noise
            samples.append(min(max(level, 0), 255))
    return bytes(samples)


def numbers(*values):
    """Signed 16-bit numbers, low byte first."""
    return struct.pack(f"<{len(values)}h", *values)


def motion_job():
    generator = Generator(2024)
    source = texture(generator, WIDTH + 2 * MARGIN, HEIGHT + 2 * MARGIN)
    # A vector leads from the block to its match, so the current plane is cut
    # at the vector and picture 1 at the origin.
    current = plane(generator, source, *MOTION, noise=2)
    picture_0 = plane(generator, source, MOTION[0] - OTHER[0], MOTION[1] - OTHER[1], noise=24)
    picture_1 = plane(generator, source, 0, 0, noise=2)

    head = numbers(WIDTH, HEIGHT, 2, 3, 32, 16, 16, 16, 28, 16)
    predicted = [(9, -3), (18, -9)]             # quarter samples, one for each picture
    proposals = [(4, -3), (-7, 6), (12, 0)]     # whole samples
    vectors = predicted + proposals
    horizontals = numbers(*(x for x, _ in vectors))
    verticals = numbers(*(y for _, y in vectors))
    return head + horizontals + verticals + current + picture_0 + picture_1


def flat_job():
    head = numbers(16, 16, 1, 0, 0, 0, 16, 16, 30, 4)
    return head + numbers(0, 0) + bytes([100]) * 512


def main():
    arguments = sys.argv[1:]
    is_flat = "--flat" in arguments
    paths = [a for a in arguments if a != "--flat"]
    if len(paths) != 1:
        sys.exit("usage: make_motion.py [--flat] PATH")
    with open(paths[0], "wb") as file:
        file.write(flat_job() if is_flat else motion_job())


if __name__ == "__main__":
    main()
