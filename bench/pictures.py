"""Writes the samples of a current and a reference picture: a texture that moves by fractions of a sample, under noise."""
import math
import random
import sys


def main():
    width, height = int(sys.argv[1]), int(sys.argv[2])
    noise = random.Random(5)

    def texture(x, y):
        return 128 + 60 * math.sin(x / 7 + y / 31) + 40 * math.cos(y / 5 + x / 11) + 20 * math.sin(x * y / 900)

    def picture(move):
        return bytes(
            max(0, min(255, int(texture(*move(x, y)) + noise.gauss(0, 4))))
            for y in range(height) for x in range(width))

    sys.stdout.buffer.write(picture(lambda x, y: (x + 2.25 + x / 90, y - 1.5)))
    sys.stdout.buffer.write(picture(lambda x, y: (x, y)))


if __name__ == "__main__":
    main()
