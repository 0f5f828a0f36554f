"""Writes lossless JPEG streams (T.81, Annex H) of planes of samples: any precision from 2 to 16
bits, all factors 1."""

# A code of five bits for each of the 17 categories of a difference: the number of the category.
CODE_LENGTH, CATEGORIES = 5, 17


def segment(marker, parameters):
    return bytes([0xFF, marker]) + (2 + len(parameters)).to_bytes(2, "big") + bytes(parameters)


def frame_header(precision, width, height, count):
    """SOF3: components 1 to `count`, with no quantization tables."""
    components = [value for index in range(1, count + 1) for value in (index, 0x11, 0)]
    return segment(
        0xC3, [precision, *height.to_bytes(2, "big"), *width.to_bytes(2, "big"), count, *components]
    )


def table():
    """DHT: the table of class 0 at destination 0."""
    counts = [CATEGORIES if length == CODE_LENGTH else 0 for length in range(1, 17)]
    return segment(0xC4, [0, *counts, *range(CATEGORIES)])


def scan_header(indices, selection):
    """SOS of the components with these indices, of which the first is 0."""
    components = [value for index in indices for value in (index + 1, 0)]
    return segment(0xDA, [len(indices), *components, selection, 0, 0])


def prediction(plane, x, y, selection, precision):
    """The prediction of a sample (T.81, H.1.2.1)."""
    if y == 0:
        return plane[0][x - 1] if x else 1 << (precision - 1)
    above = plane[y - 1][x]
    if x == 0:
        return above
    left, corner = plane[y][x - 1], plane[y - 1][x - 1]
    return {
        1: left,
        2: above,
        3: corner,
        4: left + above - corner,
        5: left + ((above - corner) >> 1),
        6: above + ((left - corner) >> 1),
        7: (left + above) >> 1,
    }[selection]


def coded_difference(difference):
    """The bits of a difference, taken modulo 2^16 (T.81, H.1.2.2)."""
    difference = (difference + 32767) % 65536 - 32767
    category = abs(difference).bit_length()
    code = format(category, f"0{CODE_LENGTH}b")
    if category in (0, 16):
        return code
    return code + format(
        difference if difference > 0 else difference + (1 << category) - 1, f"0{category}b"
    )


def scan_data(planes, selection, precision):
    """The entropy-coded data of a scan: at each pixel a difference of each plane."""
    height, width = len(planes[0]), len(planes[0][0])
    bits = "".join(
        coded_difference(plane[y][x] - prediction(plane, x, y, selection, precision))
        for y in range(height)
        for x in range(width)
        for plane in planes
    )
    bits += "1" * (-len(bits) % 8)
    return int(bits, 2).to_bytes(len(bits) // 8, "big").replace(b"\xff", b"\xff\0")


def lossless_stream(planes, precision, selection, interleaved):
    """The stream of planes, each a list of lines, in one scan or in a scan for each."""
    every = range(len(planes))
    stream = (
        b"\xff\xd8"
        + frame_header(precision, len(planes[0][0]), len(planes[0]), len(planes))
        + table()
    )
    for indices in [every] if interleaved else [[index] for index in every]:
        data = scan_data([planes[index] for index in indices], selection, precision)
        stream += scan_header(indices, selection) + data
    return stream + b"\xff\xd9"
