#!/usr/bin/env python3
"""Makes a job for `seek` and `price` from PGM pictures: a current picture and its reference pictures."""
import argparse
import struct
import sys

LONGEST = 65536           # bytes of a job


class Unusable(Exception):
    """Why no job can be made."""


def read_pgm(path):
    """The width, the height and the samples of a binary or plain PGM file of 8 bits."""
    try:
        with open(path, "rb") as file:
            data = file.read()
    except OSError as error:
        raise Unusable(f"{path}: {error.strerror}") from error
    fields, at = [], 0
    while len(fields) < 4 and at < len(data):
        if data[at : at + 1].isspace():
            at += 1
        elif data[at : at + 1] == b"#":
            at = data.find(b"\n", at) + 1 or len(data)
        else:
            end = at
            while end < len(data) and not data[end : end + 1].isspace():
                end += 1
            fields.append(data[at:end])
            at = end
    if len(fields) < 4 or fields[0] not in (b"P5", b"P2"):
        raise Unusable(f"{path}: not a PGM picture (P5 or P2)")
    try:
        width, height, greatest = (int(field) for field in fields[1:])
        samples = data[at + 1 :] if fields[0] == b"P5" else bytes(int(w) for w in data[at:].split())
    except ValueError as error:
        raise Unusable(f"{path}: a number of the picture cannot be read") from error
    if greatest != 255:
        raise Unusable(f"{path}: its greatest sample is {greatest}; only 255 can be used")
    if len(samples) < width * height:
        raise Unusable(f"{path}: {len(samples)} samples, where {width} x {height} need {width * height}")
    return width, height, samples[: width * height]


def pair(text):
    """A horizontal and a vertical component, as `3,-2`."""
    x, y = text.split(",")
    return int(x), int(y)


def shape(text):
    """A block's width and height, as `16x8`."""
    width, height = text.split("x")
    return int(width), int(height)


def part(text):
    """A part of a picture, as `16,32,176x144`: its left column, its top row, its size."""
    left, top, size = text.split(",")
    return int(left), int(top), *shape(size)


def cut(picture, left, top, width, height):
    """A part of a picture's samples."""
    across, down, samples = picture
    if left < 0 or top < 0 or left + width > across or top + height > down:
        raise Unusable(f"the part {width}x{height} at {left},{top} does not lie in a picture of {across}x{down}")
    return b"".join(samples[y * across + left : y * across + left + width] for y in range(top, top + height))


def arguments():
    parser = argparse.ArgumentParser(
        description="Makes a job from a current picture and 1 to 16 reference pictures of its size, all PGM.",
        epilog="A job has 65,536 bytes at most: two pictures of 176x144 fit, larger ones want --crop. "
        "A number below 0 is joined by =, as in --predicted=-3,2. "
        "Example: make_job.py now.pgm before.pgm --block 16,32 --qp 28 > a.job",
    )
    parser.add_argument("current", help="the picture whose block is searched for")
    parser.add_argument("reference", nargs="+", help="the pictures that are searched, number 0 first")
    parser.add_argument("--block", type=pair, default=(0, 0), metavar="LEFT,TOP",
                        help="where the block lies in the current picture, after --crop (0,0)")
    parser.add_argument("--shape", type=shape, default=(16, 16), metavar="WxH",
                        help="16x16, 16x8, 8x16, 8x8, 8x4, 4x8 or 4x4 (16x16)")
    parser.add_argument("--qp", type=int, default=28, help="0 to 51 (28)")
    parser.add_argument("--range", type=int, default=16, help="4, 8, 12 and so on to 64 (16)")
    parser.add_argument("--predicted", type=pair, action="append", metavar="X,Y",
                        help="a predicted vector in quarter samples, one for each reference picture, in order (0,0)")
    parser.add_argument("--proposal", type=pair, action="append", default=[], metavar="X,Y",
                        help="a vector in whole samples for the fast recipe to try; may be given up to 64 times")
    parser.add_argument("--crop", type=part, metavar="LEFT,TOP,WxH",
                        help="the part of all pictures to use; its sizes are multiples of 16")
    parser.add_argument("--output", "-o", help="the file to write; standard output if it is not given")
    return parser.parse_args()


def make(given):
    """The bytes of the job."""
    pictures = [read_pgm(path) for path in (given.current, *given.reference)]
    width, height = pictures[0][:2]
    for path, picture in zip(given.reference, pictures[1:]):
        if picture[:2] != (width, height):
            raise Unusable(f"{path}: {picture[0]}x{picture[1]}, where {given.current} has {width}x{height}")
    left, top, width, height = given.crop or (0, 0, width, height)
    planes = [cut(picture, left, top, width, height) for picture in pictures]
    n = len(given.reference)
    predicted = given.predicted or [(0, 0)] * n
    if len(predicted) != n:
        raise Unusable(f"{len(predicted)} predicted vectors, where there are {n} reference pictures")
    vectors = [*predicted, *given.proposal]
    head = (width, height, n, len(given.proposal), *given.block, *given.shape, given.qp, given.range)
    numbers = [*head, *(x for x, _ in vectors), *(y for _, y in vectors)]
    try:
        job = struct.pack(f"<{len(numbers)}h", *numbers) + b"".join(planes)
    except struct.error as error:
        raise Unusable("a number does not fit 16 bits") from error
    if len(job) > LONGEST:
        raise Unusable(f"{len(job)} bytes, where a job has {LONGEST} at most; use a part of the pictures (--crop)")
    return job


def main():
    given = arguments()
    try:
        job = make(given)
    except Unusable as error:
        print(f"make_job.py: {error}", file=sys.stderr)
        return 1
    if given.output:
        with open(given.output, "wb") as file:
            file.write(job)
    else:
        sys.stdout.buffer.write(job)
    return 0


if __name__ == "__main__":
    sys.exit(main())
