#!/usr/bin/env python3
"""Makes the seed corpus of the fuzz target: seeds.py FILE.zip [SUITE]

The streams are those of the conformance suite (../../../tests/suite/make, or the folder SUITE that
it has made) and of ../../../tests/programs/files, each with settings before it (target.c): one with
none, and one with settings that depend on its name. Streams that are longer than the target takes
are left out.
"""
import subprocess
import sys
import tempfile
import zipfile
import zlib
from pathlib import Path

HERE = Path(__file__).resolve().parent
TOP = HERE.parents[2]
# As max_len in decode_fuzzer.options.
MOST_BYTES = 16384
NO_SETTINGS = bytes(24)


def settings_of(name):
    """Settings that decode most pictures: a layout, a scale, a stride, flags, metadata, cuts, a
    part and a size to fit within; a few ask for what doesn't exist."""
    number = zlib.crc32(name.encode())
    # (no transform, no refused memory and no limit, which would refuse most of them)
    settings = [
        number % 11,
        0,
        number >> 3 & 7,
        number >> 6 & 31,
        number >> 11 & 31,
        7 | number >> 8 & 128,
        number >> 16 & 5,
        number >> 19 & 255,
        number >> 23 & 255,
        0,
        0,
        number >> 5 & 7,
    ]
    cuts, part = zlib.crc32(name.encode(), 1), zlib.crc32(name.encode(), 2)
    sizes = [1 + (part >> 8 & 15), 1 + (part >> 12 & 15)]
    misuse = part >> 18 & 127
    return (
        bytes(settings)
        + cuts.to_bytes(4, "big")
        + bytes([part >> 16 & 3])
        + part.to_bytes(4, "big")
        + bytes(sizes)
        + bytes([misuse if misuse <= 10 else 0])
    )


def streams(suite):
    """Gives the name and the bytes of each stream."""
    for folder in (suite / "cases", TOP / "tests/programs/files"):
        for path in sorted(folder.glob("*.jpg")):
            yield path.stem, path.read_bytes()


def write_corpus(file, suite):
    """Writes the corpus, the same bytes each time, and says how many inputs it has."""
    count = 0
    with zipfile.ZipFile(file, "w", zipfile.ZIP_DEFLATED) as corpus:
        for name, stream in streams(suite):
            if len(NO_SETTINGS) + len(stream) > MOST_BYTES:
                continue
            for suffix, settings in (("", NO_SETTINGS), ("-set", settings_of(name))):
                entry = zipfile.ZipInfo(name + suffix)
                entry.compress_type = zipfile.ZIP_DEFLATED
                corpus.writestr(entry, settings + stream)
                count += 1
    print(f"seeds: {count} inputs")


def main():
    if len(sys.argv) not in (2, 3):
        sys.exit(__doc__)
    if len(sys.argv) == 3:
        write_corpus(sys.argv[1], Path(sys.argv[2]))
        return
    with tempfile.TemporaryDirectory() as room:
        subprocess.run([TOP / "tests/suite/make", room], check=True, stdout=subprocess.DEVNULL)
        write_corpus(sys.argv[1], next(Path(room).glob("zaxbriar-suite-*/cases")).parent)


main()
