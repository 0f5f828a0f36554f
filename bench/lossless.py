"""Lossless JPEG files (T.81, H): 8 bits a sample, each predicted by its left neighbour, one scan of
all components, which all have the picture's size."""

# The code lengths of the categories 0 to 11 (T.81, Table K.3).
COUNTS = bytes([0, 1, 5, 1, 1, 1, 1, 1, 1, 0, 0, 0, 0, 0, 0, 0])
CATEGORIES = bytes(range(12))
FIRST_PREDICTION = 128


def codes():
    """The code of each category, as a text of bits."""
    made, code, place = {}, 0, 0
    for length, count in enumerate(COUNTS, 1):
        for category in CATEGORIES[place : place + count]:
            made[category] = format(code, f"0{length}b")
            code += 1
        place += count
        code *= 2
    return made


def differences_in_bits():
    """The bits of each difference of two samples of 8 bits."""
    made, code_of = {}, codes()
    for difference in range(-255, 256):
        category = abs(difference).bit_length()
        value = difference if difference >= 0 else difference + (1 << category) - 1
        made[difference] = code_of[category] + (format(value, f"0{category}b") if category else "")
    return made


def differences(plane, width):
    """The differences of a plane's samples; the first of a line is predicted by the one above."""
    above = FIRST_PREDICTION
    for start in range(0, len(plane), width):
        line = plane[start : start + width]
        yield line[0] - above
        yield from (here - left for left, here in zip(line, line[1:]))
        above = line[0]


def entropy_coded(width, planes):
    """The bytes of the scan: at each pixel a difference of each plane."""
    bits = differences_in_bits()
    pixels = zip(*(differences(plane, width) for plane in planes))
    text = "".join(bits[difference] for pixel in pixels for difference in pixel)
    text += "1" * (-len(text) % 8)
    return int(text, 2).to_bytes(len(text) // 8, "big").replace(b"\xff", b"\xff\x00")


def segment(code, payload):
    return b"\xff%c" % code + (len(payload) + 2).to_bytes(2, "big") + payload


def lossless(width, height, planes):
    """A file of components, each by its samples, line by line."""
    numbers = range(1, len(planes) + 1)
    frame = b"\x08" + height.to_bytes(2, "big") + width.to_bytes(2, "big") + bytes([len(planes)])
    frame += b"".join(bytes([number, 0x11, 0]) for number in numbers)
    table = b"\0" + COUNTS + CATEGORIES
    scan = bytes([len(planes)]) + b"".join(bytes([number, 0]) for number in numbers) + b"\1\0\0"
    headers = segment(0xC3, frame) + segment(0xC4, table) + segment(0xDA, scan)
    return b"\xff\xd8" + headers + entropy_coded(width, planes) + b"\xff\xd9"
