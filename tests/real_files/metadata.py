"""Compares what `zaxbriar info` extracts with what exiftool does, on files that exiftool wrote.

metadata.py ZAXBRIAR [FILE..]: for each file, or for files made by cjpeg and exiftool where none are
named, it compares
- Exif data, also those of several segments, the thumbnail and IPTC data, byte for byte, with the
  blocks that `exiftool -b` writes;
- each description, above the size of a segment, in the text of the extended XMP data with
  exiftool's.
The status is 1 where something differs.
"""

import subprocess
import sys
import tempfile
from pathlib import Path
from xml.sax.saxutils import unescape

from pictures import ppm
from streams import output_of

BLOCKS = {"--exif": "-Exif", "--thumbnail": "-ThumbnailImage", "--iptc": "-IPTC", "--xmp": "-XMP"}
LONG = " ".join(f"word {it} & <more>" for it in range(6000))
# What exiftool is asked to write, file by file: `{}` is the folder.
WRITTEN = (
    ("-Orientation#=6", "-ThumbnailImage<={}/small.jpg"),
    ("-Orientation#=8", "-UserComment<={}/long.txt", "-ThumbnailImage<={}/small.jpg"),
    ("-Orientation#=3", "-UserComment<={}/long.txt", "-ExifByteOrder=II"),
    ("-IPTC:ObjectName=a title", "-IPTC:Keywords=one", "-IPTC:Keywords=two"),
    ("-IPTC:Caption-Abstract<={}/long.txt", "-Photoshop:URL=https://example.org/"),
    ("-XMP-dc:Description<={}/long.txt",),
    ("-XMP-dc:Description<={}/long.txt", "-XMP-dc:Title=short", "-Orientation#=5"),
)


def made(folder):
    """Small pictures that exiftool gave data."""
    small = output_of(["cjpeg", "-quality", "50"], ppm("gradient", 16, 12))
    (folder / "small.jpg").write_bytes(small)
    (folder / "long.txt").write_text(LONG)
    for number, options in enumerate(WRITTEN):
        path = folder / f"{number}.jpg"
        path.write_bytes(output_of(["cjpeg"], ppm("checks", 40, 30)))
        words = [it.format(folder) for it in options]
        subprocess.run(["exiftool", "-q", "-q", "-overwrite_original", *words, path], check=True)
        yield path


def extracted(zaxbriar, option, path):
    """What `info` writes, and whether it says that there are such data."""
    done = subprocess.run([zaxbriar, "info", option, "-", path], capture_output=True)
    return done.stdout, done.returncode == 0


def faults_of(zaxbriar, path):
    """Which data differ from exiftool's, and how many were compared."""
    faults, compared = [], 0
    for option, tag in BLOCKS.items():
        theirs = output_of(["exiftool", "-b", tag, path], b"")
        ours, is_there = extracted(zaxbriar, option, path)
        compared += bool(theirs)
        if ours != theirs or is_there != bool(theirs):
            faults.append(f"{option}: {len(ours)} bytes, not {len(theirs)}")
    text, is_there = extracted(zaxbriar, "--extended-xmp", path)
    if is_there:
        compared += 1
        theirs = output_of(["exiftool", "-b", "-XMP-dc:Description", path], b"").decode()
        if theirs not in unescape(text.decode()):
            faults.append("--extended-xmp: another description")
    return faults, compared


def main():
    zaxbriar, *names = sys.argv[1:]
    with tempfile.TemporaryDirectory() as folder:
        paths = [Path(it) for it in names] or list(made(Path(folder)))
        found = [faults_of(zaxbriar, path) for path in paths]
    for path, (faults, _) in zip(paths, found):
        for fault in faults:
            print(f"{path.name}: {fault}")
    wrong = sum(len(faults) for faults, _ in found)
    print(f"{len(paths)} files, {sum(it for _, it in found)} blocks of data, {wrong} faults")
    return bool(wrong)


if __name__ == "__main__":
    sys.exit(main())
