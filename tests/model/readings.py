#!/usr/bin/env python3
"""The pictures that count as right where T.81 leaves open the colours and how samples are spread.

T.81 gives the samples of components, each of its own size (A.1.1). How those of a smaller one are
spread over the picture, and which colours they are, it doesn't say. So a picture is right if each
pixel takes a value between the samples around it, and if it is one of the readings of its
components: the samples themselves, and what T.871 or Adobe's programs make of them.

Samples of 12 bits, which the model doesn't have, come of the coefficients that strict.py reads, by
A.3.3 in floating point.

readings_of(stream, is_partial) -> [Reading], of which each pixel has a least and a greatest value
"""
import collections
import math

import model
import strict

# How far two conforming transforms may be apart in a sample: each is within 1 of the real number,
# rounded (IEEE 1180). T.83 compares coefficients, which allows more.
TOLERANCE = 2

Reading = collections.namedtuple('Reading', 'colours depth low high')
Picture = collections.namedtuple('Picture', 'frame components')


# Of each frequency its values at the eight samples of a row (A.3.3).
WAVES = [
    [math.cos((2 * x + 1) * u * math.pi / 16) * math.sqrt(1 if u else 0.5) / 2 for x in range(8)]
    for u in range(8)
]


def transformed(coefficients, steps, precision):
    """The samples of a block, row by row, of coefficients in zigzag order (A.3.3)."""
    rows = [[0] * 8 for _ in range(8)]
    for place, value, step in zip(model.ZIGZAG, coefficients, steps):
        rows[place >> 3][place & 7] = value * step
    rows = [[sum(v * WAVES[u][x] for u, v in enumerate(row)) for x in range(8)] for row in rows]
    most, samples = (1 << precision) - 1, []
    for y in range(8):
        for x in range(8):
            value = sum(rows[v][x] * WAVES[v][y] for v in range(8)) + (most + 1) // 2
            samples.append(min(max(round(value), 0), most))
    return samples


def picture_of_coefficients(stream):
    """As picture_of, of the coefficients that strict.py reads of a legal stream."""
    frame, components = strict.judge(stream).frame, []
    frame.comps, frame.process = frame.components, 'transformed'
    for component in frame.comps:
        blocks = {
            place: transformed(block, component.quantization, frame.precision)
            for place, block in component.blocks.items()
        }
        width = model.ceil_div(frame.w * component.h, frame.hmax)
        height = model.ceil_div(frame.h * component.v, frame.vmax)
        components.append(
            (width, height, lambda x, y, b=blocks: b[y >> 3, x >> 3][(y & 7) * 8 + (x & 7)])
        )
    return Picture(frame, components)


def picture_of(stream, is_partial):
    """The frame of a stream, and of each component the width, the height, and samples by place."""
    brought = model.Brought()
    said, settings = model.nothing_said(None), model.Settings()
    try:
        model.read_segments(model.Bytes(stream), settings, said, None, brought, is_partial)
    except model.Refused:
        if not is_partial:
            raise
    brought.end()
    brought.complete()
    frame, components = brought.frame, []
    for i in range(len(frame.comps)):
        if frame.process == 'lossless':
            width, height, plane = brought.planes[i]
            components.append((width, height, lambda x, y, p=plane, w=width: p[y * w + x]))
        else:
            samples = model.plane_of(frame, i, *brought.planes[i], 8)
            components.append((*frame.sizes(8)[i], samples))
    return Picture(frame, components)


def around(place, factor, greatest, size):
    """The places of the samples around one of a picture."""
    if factor == greatest:
        return [place]
    middle = place * factor // greatest
    return sorted({min(max(at, 0), size - 1) for at in (middle - 1, middle, middle + 1)})


def spread(picture, i, tolerance):
    """Of each pixel the least and the greatest value that component i may have there."""
    frame, (width, height, sample) = picture.frame, picture.components[i]
    component = frame.comps[i]
    most = (1 << frame.precision) - 1
    low, high = [], []
    for y in range(frame.h):
        rows = around(y, component.v, frame.vmax, height)
        for x in range(frame.w):
            columns = around(x, component.h, frame.hmax, width)
            near = [sample(column, row) for row in rows for column in columns]
            low.append(max(min(near) - tolerance, 0))
            high.append(min(max(near) + tolerance, max(most, max(near))))
    return low, high


def converted(low, high, most):
    """T.871: red, green and blue of Y, Cb and Cr, each between its least and its greatest, and one
    more for how they are rounded; and the same for samples of any other precision."""
    out_low, out_high, middle = [], [], (0, most // 2 + 1, most // 2 + 1)
    for at in range(len(low[0])):
        y0, b0, r0 = (plane[at] - grey for plane, grey in zip(low, middle))
        y1, b1, r1 = (plane[at] - grey for plane, grey in zip(high, middle))
        ends = (
            (y0 + 1.402 * r0, y1 + 1.402 * r1),
            (
                y0 - 0.344136 * b1 - 0.714136 * r1,
                y1 - 0.344136 * b0 - 0.714136 * r0,
            ),
            (y0 + 1.772 * b0, y1 + 1.772 * b1),
        )
        out_low.append([min(max(int(round(end)) - 1, 0), most) for end, _ in ends])
        out_high.append([min(max(int(round(end)) + 1, 0), most) for _, end in ends])
    return [list(plane) for plane in zip(*out_low)], [list(plane) for plane in zip(*out_high)]


def inverted(low, high, most):
    return [[most - v for v in plane] for plane in high], [
        [most - v for v in plane] for plane in low
    ]


def interleaved(planes):
    return [value for pixel in zip(*planes) for value in pixel]


def readings_of(stream, is_partial=False, is_deep=False):
    """The readings of a stream's picture. `is_deep` says that its samples have 12 bits."""
    picture = picture_of_coefficients(stream) if is_deep else picture_of(stream, is_partial)
    frame, count = picture.frame, len(picture.components)
    tolerance = 0 if frame.process == 'lossless' else TOLERANCE
    most = (1 << frame.precision) - 1
    ends = [spread(picture, i, tolerance) for i in range(count)]
    low, high = [end[0] for end in ends], [end[1] for end in ends]
    found = {'samples': (low, high)}
    if count == 4:
        found['inverted'] = inverted(low, high, most)
    if count >= 3:
        colours = converted(low[:3], high[:3], most)
        if count == 3:
            found['T.871'] = colours
        else:
            black, white = (low[3:], high[3:]), inverted(low[3:], high[3:], most)
            others = inverted(*colours, most)
            for name, first, last in (
                ('YCCK', colours, black),
                ('YCCK, black inverted', colours, white),
                ('YCCK, colours inverted', others, black),
                ('YCCK, inverted', others, white),
            ):
                found[name] = first[0] + last[0], first[1] + last[1]
    return [
        Reading(name, count, interleaved(planes[0]), interleaved(planes[1]))
        for name, planes in found.items()
    ]
