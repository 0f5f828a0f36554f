"""Pictures that are drawn: red, green and blue of each pixel, line by line from above, the same in
each run."""

import random


def gradient(width, height):
    """Each colour rises in a direction of its own."""
    right, down = max(1, width - 1), max(1, height - 1)
    return bytes(
        value
        for y in range(height)
        for x in range(width)
        for value in (255 * x // right, 255 * y // down, 3 * (x + y) % 256)
    )


def checks(width, height):
    """Rectangles with sharp edges, tinted by their place."""

    def colour(x, y):
        light = 255 if (x // 7 + y // 5) % 2 else 30
        return light, (2 * light + x) % 256, (255 - light + y) % 256

    return bytes(value for y in range(height) for x in range(width) for value in colour(x, y))


def noise(width, height):
    """Samples of no order."""
    return random.Random(f"{width}x{height}").randbytes(3 * width * height)


PICTURES = {"gradient": gradient, "checks": checks, "noise": noise}


def ppm(kind, width, height):
    """A picture as a PPM file."""
    return b"P6\n%d %d\n255\n" % (width, height) + PICTURES[kind](width, height)
