"""A drawn picture with smooth colours, edges and fine grain, the same in each run."""

import math
import random

WIDTH, HEIGHT = 2000, 1500
GRAIN = 9
DISCS = 60


def waves(length, period, phase):
    """A slow wave from 0 to 80 along a side."""
    return [40 + 40 * math.sin(place / period + phase) for place in range(length)]


def discs(order):
    """For each line the spans of the discs on it, each its columns and how much lighter it is."""
    spans = [[] for _ in range(HEIGHT)]
    for _ in range(DISCS):
        x, y, radius = order.randrange(WIDTH), order.randrange(HEIGHT), order.randrange(20, 220)
        light = order.randrange(-60, 60)
        for line in range(max(0, y - radius), min(HEIGHT, y + radius)):
            half = math.isqrt(radius**2 - (line - y) ** 2)
            spans[line].append((max(0, x - half), min(WIDTH, x + half), light))
    return spans


def lines(order):
    """The lines from above, each red, green and blue of its pixels."""
    across = [waves(WIDTH, period, period) for period in (90, 140, 230)]
    down = [waves(HEIGHT, period, 0) for period in (110, 75, 300)]
    for y, spans in enumerate(discs(order)):
        light = [60] * WIDTH
        for start, end, more in spans:
            light[start:end] = [value + more for value in light[start:end]]
        grain = order.randbytes(WIDTH)
        light = [value + byte % (2 * GRAIN + 1) for value, byte in zip(light, grain)]
        line = bytearray(3 * WIDTH)
        for colour in range(3):
            wave, here = across[colour], down[colour][y]
            line[colour::3] = bytes(
                min(255, max(0, int(a + here + b))) for a, b in zip(wave, light)
            )
        yield bytes(line)


def pixels():
    """Red, green and blue of each pixel, line by line."""
    return b"".join(lines(random.Random(1)))
