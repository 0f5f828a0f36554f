"""Files of `zaxbriar pnm`, read back by netpbm's tools and by ImageMagick: each sample is the one
that was coded.

netpbm.py [ZAXBRIAR]. Lossless streams of each precision from 2 to 16 bits and of 1, 3 and 4
components come from lossless_encoder.py, DCT streams from cjpeg. At quality 100, and where each
block has one value, a DCT stream has the samples exactly, since the DC coefficient of a value v is
8 * (v - 128); so it has them at each scale. The status is 1 where a sample, a size, a greatest
value or a kind of file differs.
"""

import random
import shutil
import subprocess
import sys
import tempfile
from pathlib import Path

from lossless_encoder import lossless_stream
from segments import of_components

# The size of a lossless picture, by the selection of its predictor.
SIZES = {1: (31, 17), 2: (1, 40), 3: (40, 1), 4: (2, 2), 5: (13, 29), 6: (64, 8), 7: (101, 5)}
KINDS = {1: "PGM", 3: "PPM", 4: "PAM"}
TUPLE_TYPES = {1: "GRAYSCALE", 3: "RGB", 4: "CMYK"}
RAW_FORMATS = {1: "gray", 3: "rgb", 4: "cmyk"}
PACKAGES = {
    "pamfile": "netpbm",
    "pamtable": "netpbm",
    "cjpeg": "libjpeg-turbo-progs",
    "convert": "imagemagick",
}


def output_of(*words, stdin=b""):
    """What a program writes for some input."""
    return subprocess.run(words, input=stdin, capture_output=True, check=True).stdout


def random_planes(count, width, height, most, chance):
    """Planes of samples of no order, with both extremes in each and next to each other."""
    planes = []
    for _ in range(count):
        samples = [chance.choice((0, most, chance.randint(0, most))) for _ in range(width * height)]
        samples[:3] = 0, most, 0
        planes.append([samples[y * width : (y + 1) * width] for y in range(height)])
    return planes


def pixels_of(planes):
    """The samples pixel by pixel, line by line."""
    return [value for lines in zip(*planes) for pixel in zip(*lines) for value in pixel]


def enlarged(planes, side, width, height):
    """The planes of a picture in which each value stands for a square of so many pixels a side."""
    return [
        [[plane[y // side][x // side] for x in range(width)] for y in range(height)]
        for plane in planes
    ]


def lossless_files(chance):
    """For each file its name, its stream, the arguments of `pnm`, its precision and its
    planes."""
    for precision in range(2, 17):
        for count in KINDS:
            for interleaved in (True, False) if count > 1 else (False,):
                for selection in range(1, 8):
                    planes = random_planes(count, *SIZES[selection], (1 << precision) - 1, chance)
                    scans = "one scan" if interleaved else "a scan for each"
                    frame = f"lossless, {precision} bits, {count} components"
                    name = f"{frame}, {scans}, selection {selection}"
                    yield name, lossless_stream(
                        planes, precision, selection, interleaved
                    ), [], precision, planes


def dct_stream(planes, progressive):
    """The stream of cjpeg for planes whose blocks have one value each, of four components put
    together from its streams of one."""
    if len(planes) == 4:
        # Stored the other way round, as Adobe's programs do.
        stored = [[[255 - value for value in line] for line in plane] for plane in planes]
        return of_components([dct_stream([plane], progressive) for plane in stored])
    kind, colours = (b"P5", "-grayscale") if len(planes) == 1 else (b"P6", "-rgb")
    picture = b"%s %d %d 255\n" % (kind, len(planes[0][0]), len(planes[0])) + bytes(
        pixels_of(planes)
    )
    coding = ["-progressive"] if progressive else []
    return output_of("cjpeg", "-quality", "100", "-sample", "1x1", colours, *coding, stdin=picture)


def dct_files(chance):
    """The same of DCT streams, at each scale; four blocks by three, of which the last are cut
    off."""
    width, height = 8 * 4 - 3, 8 * 3 - 5
    for count in KINDS:
        for progressive in (False, True):
            values = random_planes(count, 4, 3, 255, chance)
            stream = dct_stream(enlarged(values, 8, width, height), progressive)
            for side, scale in ((1, "1/8"), (2, "1/4"), (4, "1/2"), (8, "1")):
                size = -(-width * side // 8), -(-height * side // 8)
                process = "progressive" if progressive else "sequential"
                name = f"{process}, {count} components, {side}/8"
                yield name, stream, ["--scale", scale], 8, enlarged(values, side, *size)


def read_by_netpbm(path):
    """The kind of a file that has one picture alone, its width, height, depth and greatest value,
    its tuple type, and its samples."""
    said = output_of("pamfile", "-machine", "-allimages", path).decode().split(": ")[1].split()
    table = output_of("pamtable", path).decode().replace("|", " ").split()
    return [said[0], *map(int, said[2:6]), said[6]], [int(value) for value in table]


def read_by_imagemagick(path, count, most):
    """The samples of a file, which ImageMagick scales to 16 bits, brought back to the greatest
    value."""
    raw = output_of("convert", path, "-depth", "16", "-endian", "MSB", f"{RAW_FORMATS[count]}:-")
    wide = [int.from_bytes(raw[at : at + 2], "big") for at in range(0, len(raw), 2)]
    return [(2 * value * most + 65535) // (2 * 65535) for value in wide]


def faults_of(zaxbriar, path, stream, arguments, precision, planes):
    """What differs in the file that `pnm` writes for a stream."""
    path.write_bytes(output_of(zaxbriar, "pnm", *arguments, stdin=stream))
    count, most, samples = len(planes), (1 << precision) - 1, pixels_of(planes)
    head = [KINDS[count], len(planes[0][0]), len(planes[0]), count, most, TUPLE_TYPES[count]]
    said, read = read_by_netpbm(path)
    if said != head:
        yield f"netpbm reads {said}, not {head}"
    if read != samples:
        yield "netpbm reads other samples"
    if read_by_imagemagick(path, count, most) != samples:
        yield "ImageMagick reads other samples"


def main(zaxbriar):
    chance, faulty = random.Random(1), []
    with tempfile.TemporaryDirectory() as folder:
        for title, files in (("lossless", lossless_files(chance)), ("DCT", dct_files(chance))):
            total = samples = 0
            for name, *rest in files:
                total += 1
                samples += len(pixels_of(rest[-1]))
                try:
                    faulty += [
                        f"{name}: {fault}"
                        for fault in faults_of(zaxbriar, Path(folder) / "file", *rest)
                    ]
                except subprocess.CalledProcessError as error:
                    faulty.append(f"{name}: {error.cmd[0]}: {error.stderr.decode().strip()}")
            print(f"{title}: {total} files, {samples} samples", flush=True)
    print(*faulty, sep="\n", end="\n" if faulty else "")
    print(f"{len(faulty)} faults")
    return 1 if faulty else 0


if __name__ == "__main__":
    for program, package in PACKAGES.items():
        if shutil.which(program) is None:
            sys.exit(f"netpbm.py: {program} is missing; Debian's package {package} has it")
    top = Path(__file__).resolve().parents[2]
    sys.exit(main(*sys.argv[1:] or [top / "crates/zaxbriar_cli/out/zaxbriar_cli"]))
