"""JPEG files with bytes changed, put in and taken out at random, the same in each run."""

import random

from pictures import ppm
from segments import joined, segments_of
from streams import (
    CODINGS,
    PROGRESSIVE_SCRIPTS,
    SAMPLINGS,
    SEQUENTIAL_SCRIPTS,
    output_of,
    with_script,
)

SIZES = [(1, 1), (9, 7), (17, 9), (33, 24), (50, 41)]
COUNT = 4000
# A frame's size may be damaged too: beyond so many pixels a file is left out.
MOST_PIXELS = 4_000_000
MARKERS = [0x00, 0xC4, 0xD0, 0xD1, 0xD7, 0xD9, 0xDA, 0xFE, 0xFF]
SMALL_NUMBERS = [0, 1, 2, 3, 4, 17, 18, 33, 34, 36, 63, 65, 68, 255]


def whole():
    """The files that are damaged."""
    for width, height in SIZES:
        picture = ppm("checks", width, height)
        for sampling in SAMPLINGS:
            words = ["cjpeg", "-quality", "40", "-sample", sampling]
            for coding in CODINGS.values():
                yield output_of([*words, *coding], picture)
            # Not each component alone: README.md says where the original crate reads such a scan
            # otherwise.
            yield with_script(words, SEQUENTIAL_SCRIPTS["the last component first"], picture)
            yield with_script(words, PROGRESSIVE_SCRIPTS["spectral selection alone"], picture)


def with_bytes_damaged(order, stream):
    """A file after one to three changes of its bytes."""
    damaged = bytearray(stream)
    for _ in range(order.choice([1, 1, 2, 3])):
        place = order.randrange(2, len(damaged))
        change = order.randrange(7)
        if change == 0:
            damaged[place] = order.randrange(256)
        elif change == 1:
            damaged[place] ^= 1 << order.randrange(8)
        elif change == 2:
            del damaged[place : place + order.choice([1, 2, 5])]
        elif change == 3:
            damaged[place:place] = order.randbytes(order.choice([1, 2, 4]))
        elif change == 4:
            damaged[place:place] = bytes([0xFF, order.choice(MARKERS)])
        elif change == 5:
            # The segments before the first scan are a few hundred bytes.
            damaged[min(place, order.randrange(2, 700))] = order.choice(SMALL_NUMBERS)
        else:
            del damaged[max(place, 4) :]
    return bytes(damaged)


def with_segments_damaged(order, stream, other):
    """A file after a segment was taken out, repeated, moved, or put in from another file."""
    segments = segments_of(stream)
    place, another = order.randrange(len(segments)), order.randrange(len(segments))
    change = order.randrange(4)
    if change == 0:
        del segments[place]
    elif change == 1:
        segments.insert(another, segments[place])
    elif change == 2:
        segments[place], segments[another] = segments[another], segments[place]
    else:
        segments.insert(place, order.choice(segments_of(other)))
    return joined(segments)


def pixels_of(stream):
    """How many pixels the first frame header speaks of."""
    for place in range(len(stream) - 8):
        if stream[place] == 0xFF and 0xC0 <= stream[place + 1] <= 0xC3:
            return int.from_bytes(stream[place + 5 : place + 7], "big") * int.from_bytes(
                stream[place + 7 : place + 9], "big"
            )
    return 0


def damaged():
    """Damaged files, each a number as its name and its bytes."""
    order = random.Random(1)
    streams = list(whole())
    for number in range(COUNT):
        stream = order.choice(streams)
        if number % 5 == 0:
            stream = with_segments_damaged(order, stream, order.choice(streams))
        else:
            stream = with_bytes_damaged(order, stream)
        if pixels_of(stream) <= MOST_PIXELS:
            yield f"number {number}", stream
