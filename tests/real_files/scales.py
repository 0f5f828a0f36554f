"""Compares the pictures of `zaxbriar pnm` at each scale with those of `djpeg -scale`, for each size
from 1x1 to 17x17, and reads them back by Pillow, netpbm and ImageMagick.

scales.py ZAXBRIAR: grey pictures, and red, green and blue that cjpeg doesn't convert, are noise of
quality 100. Their sizes have to be those of djpeg; a sample may differ by 1 at full size, where the
two transforms round otherwise, and the greatest difference at each scale is printed. Each file has
to be read back as it is by the three programs. The status is 1 where one differs that has to be the
same.
"""

import io
import random
import sys
import tempfile
from pathlib import Path

from PIL import Image

from streams import output_of

SCALES = {"1/8": 1, "1/4": 2, "1/2": 4, "1": 8}
KINDS = {"grey": (b"P5", 1, "-grayscale"), "RGB": (b"P6", 3, "-rgb")}
MOST = 1


def picture_of(netpbm):
    """The width, the height and the samples of a PGM or PPM file."""
    _, size, _, samples = netpbm.split(b"\n", 3)
    return *map(int, size.split()), samples


def readers(netpbm, count):
    """The samples that other programs read, by the program's name."""
    kind = {1: "gray", 3: "rgb"}[count]
    yield "Pillow", Image.open(io.BytesIO(netpbm)).tobytes()
    yield "ImageMagick", output_of(["convert", "pnm:-", "-depth", "8", f"{kind}:-"], netpbm)
    table = output_of(["pamtable"], netpbm).decode().replace("|", " ")
    yield "netpbm", bytes(int(value) for value in table.split())


def faults_of(zaxbriar, path, scale, count, worst):
    """What differs in the picture of a file at a scale. The greatest difference is noted."""
    ours = output_of([zaxbriar, "pnm", "--scale", scale, str(path)], b"")
    djpeg = ["djpeg", "-dct", "int", "-pnm", "-scale", f"{SCALES[scale]}/8", str(path)]
    *size, samples = picture_of(ours)
    *their_size, theirs = picture_of(output_of(djpeg, b""))
    if size != their_size:
        yield f"{size}, not {their_size}"
        return
    difference = max(abs(a - b) for a, b in zip(samples, theirs))
    worst[scale] = max(worst[scale], difference)
    if scale == "1" and difference > MOST:
        yield f"a sample differs by {difference}"
    for name, read in readers(ours, count):
        if read != samples:
            yield f"{name} reads other samples"


def main(zaxbriar):
    chance, faults, files = random.Random(1), [], 0
    worst = dict.fromkeys(SCALES, 0)
    with tempfile.TemporaryDirectory() as folder:
        path = Path(folder) / "picture.jpg"
        for height in range(1, 18):
            for width in range(1, 18):
                for kind, (magic, count, colours) in KINDS.items():
                    noise = chance.randbytes(width * height * count)
                    netpbm = b"%s %d %d 255\n" % (magic, width, height) + noise
                    coding = ["cjpeg", "-quality", "100", "-sample", "1x1", colours]
                    path.write_bytes(output_of(coding, netpbm))
                    files += 1
                    for scale in SCALES:
                        faults += [
                            f"{width}x{height} {kind} at {scale}: {fault}"
                            for fault in faults_of(zaxbriar, path, scale, count, worst)
                        ]
    print(f"scales: {files} files, greatest differences from djpeg {worst}, {len(faults)} faults")
    print(*faults[:100], sep="\n", end="\n" if faults else "")
    return 1 if faults else 0


if __name__ == "__main__":
    sys.exit(main(*sys.argv[1:]))
