"""pixels.py JPEGRAW LIST: each file that LIST names, decoded by Pillow with the plugin, has the
pixels that jpegraw writes, and the density of JFIF that Pillow's own code reads is the library's."""

import subprocess
import sys
from collections import Counter

import zaxbriar
import zaxbriar_pillow
from PIL import Image, UnidentifiedImageError

FORMATS = {"L8": "L", "RGB24": "RGB", "CMYK32": "CMYK"}


def raw_of(jpegraw, name):
    """What jpegraw writes of a file: the mode, the size and the pixels; or None."""
    with open(name, "rb") as file:
        run = subprocess.run([jpegraw], stdin=file, capture_output=True, check=False)
    if run.returncode:
        return None
    head, _, pixels = run.stdout.partition(b"\n")
    width, height, format = head.decode().split()
    return FORMATS.get(format), (int(width), int(height)), pixels


def loaded(name):
    """What Pillow loads of a file; or None, and whether it didn't come to the pixels."""
    try:
        image = Image.open(name)
    except (UnidentifiedImageError, SyntaxError, OSError):
        return None, True
    try:
        image.load()
    except (OSError, SyntaxError):
        return None, False
    return (image.mode, image.size, image.tobytes()), False


def densities(name):
    """The density of a file that is decoded, by Pillow's own code and by the library: the unit, and
    the numbers across and down, or zeros. Pillow's own looks for it after the frame header, too."""
    with open(name, "rb") as file:
        stream = file.read()
    picture = zaxbriar.read_info(stream)
    own = 0, 0, 0
    if b"JFIF" in stream[: picture.stream_bytes]:
        with Image.open(name) as image:
            own = image.info.get("jfif_unit", 0), *image.info.get("jfif_density", (0, 0))
    return own, (picture.density_unit, picture.horizontal_density, picture.vertical_density)


def main(jpegraw, names):
    counts, faults, dense = Counter(), [], 0
    for name in names:
        ours, is_unopened = loaded(name)
        raw = raw_of(jpegraw, name)
        if is_unopened:
            counts["not opened by Pillow's own header"] += 1
        elif ours is None and raw is None:
            counts["refused by both"] += 1
        elif ours == raw:
            counts["equal"] += 1
            own, ours = densities(name)
            dense += ours != (0, 0, 0)
            if own != ours:
                faults.append(f"{name}: density {ours}, by Pillow {own}")
        else:
            faults.append(name)
    print(
        f"pillow: {len(names)} files: {dict(counts)};",
        f"{zaxbriar_pillow.decoded} decoded by zaxbriar,",
        end=" ",
    )
    print(f"{zaxbriar_pillow.decoded_in_place} of them in place, {dense} with a density;", end=" ")
    print(f"{len(faults)} faults")
    print(*faults, sep="\n", end="\n" if faults else "")
    sys.exit(1 if faults else 0)


with open(sys.argv[2]) as file:
    main(sys.argv[1], file.read().split())
