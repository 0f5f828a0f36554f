"""Compares jpegraw with djpeg of libjpeg-turbo, and with itself on files of the same coefficients.

compare.py JPEGRAW JPEGINFO prints, for grey pictures and for each sampling of colour, the greatest
and the mean difference of a sample from what `djpeg -dct int` gives, for how many pictures every
coding of the same coefficients gives the same output, how many ICC profiles that cjpeg put into
files JPEGINFO takes out of them again, and how many of exiftool's Exif and XMP data it gives as
exiftool does. The status is 1 where such data aren't the same, where a file is refused, where a
size differs, where a sample of one that is not upsampled differs by more than 1 as grey, red, green
or blue, or where codings of the same coefficients give different outputs.
"""

import operator
import random
import subprocess
import sys
import tempfile

from pictures import ppm
from streams import one_sample_a_component, output_of, same_coefficients, sampled

# A segment has room for 65519 bytes of a profile.
PROFILE_SIZES = [1, 1000, 65519, 65520, 131038, 1000000]

# The kinds whose samples are those of the transform alone: by it the two programs differ by 1 at
# most.
TRANSFORM_ALONE = ("grey", "red, green and blue")


class Differences:
    """How far the samples of some files are from others."""

    def __init__(self):
        self.files = self.samples = self.sum = self.greatest = self.equal = 0

    def add(self, ours, theirs):
        differences = list(map(abs, map(operator.sub, ours, theirs)))
        self.files += 1
        self.samples += len(differences)
        self.sum += sum(differences)
        self.greatest = max(self.greatest, *differences)
        self.equal += ours == theirs

    def __str__(self):
        mean = self.sum / self.samples
        counts = f"{self.files} files, {self.equal} equal"
        return f"{counts}, greatest difference {self.greatest}, mean {mean:.4f}"


def picture_of(words, stream):
    """The width, the height and the samples that a program gives for a stream, or None where it is
    refused."""
    done = subprocess.run(words, input=stream, capture_output=True)
    if done.returncode != 0:
        return None
    if done.stdout.startswith((b"P5", b"P6")):
        _, size, _, samples = done.stdout.split(b"\n", 3)
    else:
        line, samples = done.stdout.split(b"\n", 1)
        size = line.rsplit(b" ", 1)[0]
    return size, samples


def kind_of(name):
    """The kind of a file by its name: the picture, the sampling or the colours, and the coding."""
    return name.split("; ")[1]


def against_djpeg(jpegraw):
    """Prints the differences from djpeg by kind, and gives how many faults there are."""
    kinds, faults = {}, 0
    for files in (one_sample_a_component(), sampled()):
        for name, stream in files:
            ours = picture_of([jpegraw], stream)
            theirs = picture_of(["djpeg", "-dct", "int", "-pnm"], stream)
            if ours is None or theirs is None or ours[0] != theirs[0]:
                faults += 1
                print(f"{name}: a refusal, or another size")
            else:
                kinds.setdefault(kind_of(name), Differences()).add(ours[1], theirs[1])
    for kind, differences in kinds.items():
        print(f"{kind}: {differences}", flush=True)
        faults += kind in TRANSFORM_ALONE and differences.greatest > 1
    return faults


def of_the_same_coefficients(jpegraw):
    """Prints for how many pictures all codings give the same output, and gives how many don't."""
    pictures = files = faults = 0
    for name, codings in same_coefficients():
        outputs = {coding: picture_of([jpegraw], stream) for coding, stream in codings.items()}
        pictures += 1
        files += len(outputs)
        others = [
            coding
            for coding, output in outputs.items()
            if output is None or output != outputs["cjpeg"]
        ]
        if others:
            faults += 1
            print(f"{name}: other pictures by the codings {others}")
    print(
        f"the same coefficients: {pictures} pictures in {files} files,"
        f" {faults} with different outputs"
    )
    return faults


def of_profiles(zaxbriar):
    """Prints how many profiles are taken out of files as they were put in, and gives how many
    aren't."""
    equal = 0
    for size in PROFILE_SIZES:
        profile = random.Random(size).randbytes(size)
        with tempfile.NamedTemporaryFile(suffix=".icc") as file:
            file.write(profile)
            file.flush()
            stream = output_of(["cjpeg", "-icc", file.name], ppm("checks", 17, 9))
        done = subprocess.run([zaxbriar, "info", "--icc", "-"], input=stream, capture_output=True)
        equal += done.returncode == 0 and done.stdout == profile
    print(f"ICC profiles: {equal} of {len(PROFILE_SIZES)} are the same bytes")
    return len(PROFILE_SIZES) - equal


def of_metadata(zaxbriar):
    """Prints how many of exiftool's data are given as exiftool gives them, and gives how many
    aren't."""
    equal = total = 0
    for number, words in enumerate(([], ["-progressive"], ["-grayscale"], ["-restart", "1"]), 1):
        with tempfile.NamedTemporaryFile(suffix=".jpg") as file:
            file.write(output_of(["cjpeg", *words], ppm("checks", 17, 9)))
            file.flush()
            tags = [
                "-Artist=nobody",
                "-ExposureTime=1/60",
                "-GPSLatitude=12.5",
                "-XMP-dc:Description=" + 300 * number * "x",
            ]
            output_of(["exiftool", "-overwrite_original_in_place", *tags, file.name], b"")
            for word in ("exif", "xmp"):
                with open(file.name, "rb") as stdin:
                    ours = subprocess.run(
                        [zaxbriar, "info", f"--{word}", "-"], stdin=stdin, capture_output=True
                    ).stdout
                total += 1
                equal += ours != b"" and ours == output_of(
                    ["exiftool", "-b", f"-{word.upper()}", file.name], b""
                )
    print(f"Exif and XMP data: {equal} of {total} are the bytes that exiftool gives")
    return total - equal


def main(jpegraw, zaxbriar):
    faults = (
        against_djpeg(jpegraw)
        + of_the_same_coefficients(jpegraw)
        + of_profiles(zaxbriar)
        + of_metadata(zaxbriar)
    )
    return 1 if faults else 0


if __name__ == "__main__":
    sys.exit(main(*sys.argv[1:]))
