"""Pictures as programs write them."""
import re

FORMATS = {b'P5': ('L8', 'L16'), b'P6': ('RGB24', 'RGB24')}


def picture_of(output):
    """The size and format of the picture that a program wrote, and its pixels, or None. It is a PGM
    or PPM, or a line WIDTH HEIGHT FORMAT and the pixels, as jpegraw writes it."""
    header = re.match(rb'(P[56])\s+(?:#.*\n)*(\d+)\s+(\d+)\s+(\d+)\s', output)
    if header:
        width, height, most = (int(number) for number in header.groups()[1:])
        deep = most > 255
        size = width * height * (1 if header[1] == b'P5' else 3) * (1 + deep)
        pixels = output[header.end() :]
        if deep:
            swapped = bytearray(len(pixels))
            swapped[::2], swapped[1::2] = pixels[1::2], pixels[::2]
            pixels = bytes(swapped)
        name = '%d %d %s' % (width, height, FORMATS[header[1]][deep])
        return (name, pixels) if len(pixels) == size else None
    header = re.match(rb'(\d+ \d+ (?:L8|L16|RGB24|CMYK32))\n', output)
    return (header[1].decode(), output[header.end() :]) if header else None
