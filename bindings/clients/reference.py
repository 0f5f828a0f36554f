"""reference.py JPEGRAW FILE [ORIENTATION [PRECISION]]: the picture that jpegraw decodes as PPM of 8
bits, as clients show it.

Grey is repeated; cyan, magenta, yellow and black, and samples of a PRECISION other than 8 bits, are
converted; and the picture is turned as the Exif orientation says.
"""

import subprocess
import sys

COMPONENTS = {"L8": 1, "L16": 1, "RGB24": 3, "CMYK32": 4}


def decoded(jpegraw, name, precision):
    """The width, the height and for each pixel the list of its samples, on the scale of 0 to
    255."""
    with open(name, "rb") as file:
        output = subprocess.run([jpegraw], stdin=file, capture_output=True, check=True).stdout
    head, _, content = output.partition(b"\n")
    width, height, format = head.decode().split()
    width, height, count = int(width), int(height), COMPONENTS[format]
    size, most = (2 if precision > 8 else 1), (1 << precision) - 1
    samples = [
        (int.from_bytes(content[i : i + size], "little") * 255 + most // 2) // most
        for i in range(0, len(content), size)
    ]
    if len(samples) != width * height * count:
        sys.exit("reference.py: samples of another precision")
    return width, height, [samples[i : i + count] for i in range(0, len(samples), count)]


def in_colour(samples):
    """Red, green and blue."""
    if len(samples) == 1:
        return bytes(samples * 3)
    if len(samples) == 3:
        return bytes(samples)
    black = 255 - samples[3]
    return bytes(((255 - sample) * black + 127) // 255 for sample in samples[:3])


def turned(rows, orientation):
    """The rows of a picture as they are shown."""
    if orientation >= 5:
        rows = [list(column) for column in zip(*rows)]
    if orientation in (2, 3, 6, 7):
        rows = [row[::-1] for row in rows]
    if orientation in (3, 4, 7, 8):
        rows = rows[::-1]
    return rows


def main(jpegraw, name, orientation=1, precision=8):
    width, height, pixels = decoded(jpegraw, name, int(precision))
    colours = [in_colour(samples) for samples in pixels]
    rows = turned([colours[y * width : (y + 1) * width] for y in range(height)], int(orientation))
    sys.stdout.buffer.write(b"P6\n%d %d\n255\n" % (len(rows[0]), len(rows)))
    sys.stdout.buffer.write(b"".join(b"".join(row) for row in rows))


main(*sys.argv[1:])
