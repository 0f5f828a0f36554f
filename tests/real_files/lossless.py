"""Lossless files of dcmtk's `dcmcjpeg` and of ffmpeg's `ljpeg`: `jpegraw` gives back their samples.

By dcmcjpeg, grey pictures of 8, 12 and 16 bits and one of red, green and blue, each by the
selections 1 to 7 of a predictor. A picture goes to it in a DICOM file, and the JPEG stream is taken
out of the one that it writes.

By ffmpeg, pictures of several sizes in luma and chroma with the luma factors 2x2, 2x1 and 1x1, and
in colours with and without alpha, each by the selections 1 to 3, the only ones that it has. What
`jpegraw` gives is compared with the samples that ffmpeg itself decodes. Those of colours have 9
bits, and ffmpeg takes their differences modulo 2^9, where T.81, H.1.2.1 has 2^16: they are compared
modulo 2^9.
"""

import random
import shutil
import subprocess
import sys
import tempfile
from pathlib import Path

WIDTH, HEIGHT = 97, 61
EXPLICIT_LITTLE_ENDIAN = b"1.2.840.10008.1.2.1"
SECONDARY_CAPTURE = b"1.2.840.10008.5.1.4.1.1.7"
INSTANCE = b"1.2.826.0.1.3680043.2.1143.1"

SIZES = ((1, 1), (2, 2), (1, 4), (3, 1), (6, 5), (17, 33), (64, 48), (WIDTH, HEIGHT))
# How many columns and lines of pixels a sample of chroma stands for.
CHROMA = {"yuvj420p": (2, 2), "yuvj422p": (2, 1), "yuvj444p": (1, 1)}
# How many bytes a pixel has.
COLOURS = {"bgr24": 3, "bgr0": 4, "bgra": 4}


def element(group, number, kind, value):
    """A DICOM element; values have an even length."""
    value += (b" " if kind in (b"CS", b"DA", b"TM", b"LO", b"PN", b"SH", b"IS") else b"\0") * (
        len(value) % 2
    )
    head = group.to_bytes(2, "little") + number.to_bytes(2, "little") + kind
    if kind in (b"OB", b"OW"):
        return head + b"\0\0" + len(value).to_bytes(4, "little") + value
    return head + len(value).to_bytes(2, "little") + value


def short(n):
    return n.to_bytes(2, "little")


def dicom(components, bits, samples):
    """A DICOM file of a picture; samples of more than 8 bits have two bytes, the lower first."""
    allocated = 8 if bits <= 8 else 16
    meta = element(2, 2, b"UI", SECONDARY_CAPTURE) + element(2, 3, b"UI", INSTANCE)
    meta += element(2, 0x10, b"UI", EXPLICIT_LITTLE_ENDIAN) + element(2, 0x12, b"UI", INSTANCE)
    meta = element(2, 0, b"UL", len(meta).to_bytes(4, "little")) + meta
    data = element(8, 0x16, b"UI", SECONDARY_CAPTURE) + element(8, 0x18, b"UI", INSTANCE)
    data += element(8, 0x60, b"CS", b"OT")
    data += element(0x20, 0xD, b"UI", INSTANCE) + element(0x20, 0xE, b"UI", INSTANCE)
    data += element(0x28, 2, b"US", short(components))
    data += element(0x28, 4, b"CS", b"MONOCHROME2" if components == 1 else b"RGB")
    if components == 3:
        data += element(0x28, 6, b"US", short(0))
    data += element(0x28, 0x10, b"US", short(HEIGHT)) + element(0x28, 0x11, b"US", short(WIDTH))
    data += element(0x28, 0x100, b"US", short(allocated)) + element(0x28, 0x101, b"US", short(bits))
    data += element(0x28, 0x102, b"US", short(bits - 1)) + element(0x28, 0x103, b"US", short(0))
    data += element(0x7FE0, 0x10, b"OB" if bits <= 8 else b"OW", samples)
    return bytes(128) + b"DICM" + meta + data


def picture(components, bits, seed):
    """Samples of smooth ramps with grain, pixel by pixel."""
    chance, most, out = random.Random(seed), (1 << bits) - 1, bytearray()
    for y in range(HEIGHT):
        for x in range(WIDTH):
            for k in range(components):
                value = (x * (3 + k) + y * (5 - k)) * most // (8 * (WIDTH + HEIGHT))
                value = min(most, max(0, value + chance.randint(-most // 30 - 1, most // 30 + 1)))
                out += value.to_bytes(1 if bits <= 8 else 2, "little")
    return bytes(out)


def decoded(jpegraw, stream):
    """What the program writes after its line of text, or none where it refuses the stream."""
    run = subprocess.run(jpegraw, input=stream, capture_output=True, check=False)
    return run.stdout.partition(b"\n")[2] if run.returncode == 0 else None


def of_dcmtk():
    """The files of dcmcjpeg: the name of each, its stream and its samples."""
    with tempfile.TemporaryDirectory() as folder:
        plain, packed = Path(folder) / "plain.dcm", Path(folder) / "packed.dcm"
        for components, bits in ((1, 8), (1, 12), (1, 16), (3, 8)):
            samples = picture(components, bits, bits + components)
            plain.write_bytes(dicom(components, bits, samples))
            for selection in range(1, 8):
                command = ["dcmcjpeg", "+el", "+sv", str(selection), plain, packed]
                subprocess.run(command, capture_output=True, check=True)
                content = packed.read_bytes()
                start, end = content.index(b"\xff\xd8\xff"), content.rindex(b"\xff\xd9") + 2
                yield f"{components} of {bits} bits, selection {selection}", content[
                    start:end
                ], samples


def ffmpeg(words, content):
    """What ffmpeg makes of a file, by the words of its command before and after the file."""
    before, after = words
    command = ["ffmpeg", "-v", "error", *before, "-i", "-", *after, "-"]
    return subprocess.run(command, input=content, capture_output=True, check=True).stdout


def repeated(planes, width, height, covers):
    """The samples by pixel, luma and both chroma, each sample of chroma for the pixels it
    covers."""
    across, down = covers
    chroma_width = -(-width // across)
    for y in range(height):
        for x in range(width):
            at = y // down * chroma_width + x // across
            yield from (planes[0][y * width + x], planes[1][at], planes[2][at])


def luma_and_chroma(raw, width, height, covers):
    """The bytes of a picture by the planes that ffmpeg gives."""
    luma, chroma = width * height, -(-width // covers[0]) * -(-height // covers[1])
    planes = raw[:luma], raw[luma : luma + chroma], raw[luma + chroma :]
    return bytes(repeated(planes, width, height, covers))


def transformed(raw, size, has_alpha):
    """The samples of 9 bits, in two bytes each, as which ljpeg codes colours: a mean, and how far
    blue and red are from green."""
    for at in range(0, len(raw), size):
        blue, green, red = raw[at : at + 3]
        yield from ((blue + 2 * green + red) >> 2, blue - green + 256, red - green + 256)
        if has_alpha:
            yield raw[at + 3]


def nine_bits(samples):
    """Samples in two bytes each, the lower first, modulo 2^9."""
    return bytes(byte & 1 if at % 2 else byte for at, byte in enumerate(samples))


def of_ljpeg(format, width, height, given):
    """The files of a picture by each selection: the name of each, its stream, and ffmpeg's
    bytes."""
    kind = ["-f", "rawvideo", "-pix_fmt", format]
    for selection in range(1, 4):
        coded = ["-c:v", "ljpeg", "-pix_fmt", format, "-pred", str(selection), "-f", "mjpeg"]
        stream = ffmpeg(([*kind, "-s", f"{width}x{height}"], coded), given)
        raw = ffmpeg((["-f", "jpeg_pipe"], kind), stream)
        yield f"{format} of {width}x{height}, selection {selection}", stream, raw


def of_luma_and_chroma():
    """The files of ljpeg in luma and chroma: the name of each, its stream and its samples."""
    chance = random.Random(1)
    for width, height in SIZES:
        for format, covers in CHROMA.items():
            chroma = -(-width // covers[0]) * -(-height // covers[1])
            given = chance.randbytes(width * height + 2 * chroma)
            for name, stream, raw in of_ljpeg(format, width, height, given):
                yield name, stream, luma_and_chroma(raw, width, height, covers)


def of_colours():
    """The files of ljpeg in colours: the name of each, its stream and its samples."""
    chance = random.Random(1)
    for width, height in SIZES:
        for format, size in COLOURS.items():
            given = chance.randbytes(width * height * size)
            for name, stream, raw in of_ljpeg(format, width, height, given):
                numbers = transformed(raw, size, format == "bgra")
                yield name, stream, b"".join(short(number) for number in numbers)


def compare(jpegraw, title, files, seen=bytes):
    """Prints how many files give their samples, as they are `seen`, and which don't. Returns
    whether all do."""
    equal, failed = 0, []
    for name, stream, samples in files:
        pixels = decoded(jpegraw, stream)
        if pixels is not None and seen(pixels) == samples:
            equal += 1
        else:
            failed.append(name)
    print(f"{title}: {equal} lossless files gave their samples, {len(failed)} did not")
    print(*failed, sep="\n", end="\n" if failed else "")
    return not failed


def main():
    jpegraw = sys.argv[1:2] or [Path(__file__).resolve().parents[2] / "use", "jpegraw"]
    for program, package in (("dcmcjpeg", "dcmtk"), ("ffmpeg", "ffmpeg")):
        if shutil.which(program) is None:
            sys.exit(f"lossless.py: {program} is missing; Debian's package {package} has it")
    all_equal = [
        compare(jpegraw, "dcmtk", of_dcmtk()),
        compare(jpegraw, "ffmpeg, luma and chroma", of_luma_and_chroma()),
        compare(jpegraw, "ffmpeg, colours", of_colours(), nine_bits),
    ]
    sys.exit(0 if all(all_equal) else 1)


main()
