"""make_files.py FOLDER EVERY: writes JPEG files of many kinds to FOLDER, and their names to
FOLDER/list.

The files are those of tests/real_files/ (cjpeg, jpegtran and ImageMagick make them), of which each
kind gives every EVERYth; the same damaged; lossless files of 2 to 16 bits; lossless files of dcmtk;
and files with Exif data of each orientation. What a missing program would make is left out, with a
message.
"""

import random
import shutil
import subprocess
import sys
import tempfile
from itertools import islice
from pathlib import Path

sys.path.insert(0, str(Path(__file__).resolve().parents[3] / "tests/real_files"))

from damaged import damaged
from lossless_encoder import lossless_stream
from pictures import ppm
from segments import joined, segment, segments_of
from streams import groups, output_of

APP1, APP2 = 0xE1, 0xE2


def exif(orientation, order):
    """Exif data with an orientation: a TIFF header and one entry, of type SHORT."""

    def number(value, size):
        return value.to_bytes(size, "little" if order == b"II" else "big")

    entry = number(0x112, 2) + number(3, 2) + number(1, 4) + number(orientation, 2) + bytes(2)
    return order + number(42, 2) + number(8, 4) + number(1, 2) + entry + bytes(4)


def with_orientations():
    """A small photograph with each orientation, also some that don't exist, and its Exif data."""
    stream = output_of(["cjpeg", "-quality", "80"], ppm("gradient", 40, 24))
    for order in (b"II", b"MM"):
        for orientation in range(10):
            data = exif(orientation, order)
            part = segment(APP1, b"Exif\0\0" + data)
            told = orientation if 1 <= orientation <= 8 else 1
            yield f"{order.decode()}-{orientation}-orientation-{told}", joined(
                [part, *segments_of(stream)]
            ), data


def with_profile():
    """A file with an ICC profile in three parts."""
    profile = random.Random(3).randbytes(150_000)
    parts = [profile[start : start + 60_000] for start in range(0, len(profile), 60_000)]
    stream = output_of(["cjpeg", "-quality", "80"], ppm("noise", 24, 24))
    segments = [
        segment(APP2, b"ICC_PROFILE\0%c%c" % (number, len(parts)) + part)
        for number, part in enumerate(parts, 1)
    ]
    return joined([*segments, *segments_of(stream)]), profile


def with_later_metadata():
    """A file with XMP data and a part of an ICC profile, the second one, before the frame, and with
    others before the scan; and the XMP data before the frame."""
    first, last = (
        segment(APP1, b"http://ns.adobe.com/xap/1.0/\0" + data)
        for data in (b"<first/>", b"<last/>")
    )
    parts = [segment(APP2, b"ICC_PROFILE\0%c\2part %c" % (n, n)) for n in (1, 2)]
    stream = segments_of(output_of(["cjpeg", "-quality", "80"], ppm("noise", 24, 24)))
    return joined([first, parts[1], *stream[:-1], last, parts[0], stream[-1]]), b"<first/>"


def lossless():
    """Lossless files of each precision, of 1, 3 and 4 components."""
    chance = random.Random(2)
    for precision in range(2, 17):
        for count in (1, 3, 4):
            width, height, selection = (
                chance.randint(1, 40),
                chance.randint(1, 30),
                chance.randint(1, 7),
            )
            planes = [
                [[chance.randrange(1 << precision) for _ in range(width)] for _ in range(height)]
                for _ in range(count)
            ]
            yield f"lossless-{count}-of-{precision}-bits", lossless_stream(
                planes, precision, selection, True
            )


def of_dcmtk():
    """Files of dcmcjpeg, by each selection of a predictor: img2dcm gives it a picture in a DICOM
    file."""
    with tempfile.TemporaryDirectory() as folder:
        bitmap, plain, packed = (
            Path(folder) / name for name in ("picture.bmp", "plain.dcm", "packed.dcm")
        )
        for kind in ("gradient", "noise"):
            bitmap.write_bytes(output_of(["convert", "ppm:-", "bmp3:-"], ppm(kind, 97, 61)))
            subprocess.run(["img2dcm", "-i", "BMP", bitmap, plain], capture_output=True, check=True)
            for selection in range(1, 8):
                command = ["dcmcjpeg", "+el", "+sv", str(selection), plain, packed]
                subprocess.run(command, capture_output=True, check=True)
                content = packed.read_bytes()
                start, end = content.index(b"\xff\xd8\xff"), content.rindex(b"\xff\xd9") + 2
                yield f"dcmtk-{kind}-{selection}", content[start:end]


def has(what, *programs):
    """Whether the programs are there; says what is left out without them."""
    missing = [program for program in programs if shutil.which(program) is None]
    if missing:
        print(f"make_files.py: without {', '.join(missing)}, so without {what}", file=sys.stderr)
    return not missing


def main(folder, every):
    names = []

    def write(name, stream, **beside):
        path = folder / f"{name}.jpg"
        path.write_bytes(stream)
        names.append(str(path))
        for end, data in beside.items():
            Path(f"{path}.{end}").write_bytes(data)

    folder.mkdir(parents=True, exist_ok=True)
    for name, stream in lossless():
        write(name, stream)
    if has("files of libjpeg-turbo and ImageMagick", "cjpeg", "jpegtran", "convert"):
        for kind, (title, files) in enumerate(groups()):
            for number, (_, stream) in enumerate(islice(files, 0, None, every)):
                write(f"made-{kind}-{number}", stream)
        for number, (_, stream) in enumerate(islice(damaged(), 0, None, every)):
            write(f"damaged-{number}", stream)
        for name, stream, data in with_orientations():
            write(name, stream, exif=data)
        stream, profile = with_profile()
        write("profile", stream, icc=profile)
        stream, data = with_later_metadata()
        write("later-metadata", stream, xmp=data)
        write(
            "photo",
            output_of(["cjpeg", "-quality", "88", "-sample", "2x2"], ppm("gradient", 640, 425)),
        )
    if has("files of dcmtk", "img2dcm", "dcmcjpeg", "convert"):
        for name, stream in of_dcmtk():
            write(name, stream)
    (folder / "list").write_text("".join(f"{name}\n" for name in names))
    print(f"made {len(names)} files")


main(Path(sys.argv[1]), int(sys.argv[2]))
