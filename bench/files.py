"""The files that are measured: pictures, sizes and ways of coding."""

import functools
import io
import subprocess
from typing import NamedTuple

from lossless import lossless
from pictures import PICTURES, inks

QUALITY = 85
# How `cjpeg` is asked for each way of coding that it knows.
WAYS = {
    "grey": ["-grayscale"],
    "4:2:0": ["-sample", "2x2"],
    "4:2:2": ["-sample", "2x1"],
    "4:4:4": ["-sample", "1x1"],
    "4:4:0": ["-sample", "1x2"],
    "4:1:1": ["-sample", "4x1"],
    "4:2:0, restarts": ["-sample", "2x2", "-restart", "4B"],
    "4:2:0, progressive": ["-sample", "2x2", "-progressive"],
    "4:4:4, progressive": ["-sample", "1x1", "-progressive"],
}
CMYK, LOSSLESS_GREY, LOSSLESS = "CMYK", "lossless, grey", "lossless, colour"
SIZES = [(16, 16), (64, 64), (200, 150), (512, 384), (2000, 1500), (6000, 4000)]
# In the caches of a processor, and out of them: at these sizes all ways are measured.
ALL_WAYS_AT = [(512, 384), (2000, 1500)]
QUALITIES = [30, 75, 95, 100]
AT_EACH_SIZE = ["grey", "4:2:0", "4:4:4", "4:2:0, progressive"]
AT_EACH_QUALITY = ["4:2:0", "4:4:4"]
OF_GRAIN = [*AT_EACH_SIZE, "4:4:4, progressive"]
SCALED = {"4:2:0": [2, 4, 8], "4:2:0, progressive": [8]}
AS_STORED = "as stored"
LAYOUTS = ["RGBA", "BGRA", "XRGB", "grey", "luma"]
LAYOUTS_AT = [(200, 150), (512, 384), (2000, 1500)]
# Of these whole programs are measured, at the greatest size.
OF_PROGRAMS = [way for way in WAYS if way not in ("4:4:0", "4:1:1", "4:2:0, restarts")]


class Case(NamedTuple):
    """What is decoded, at which part of its size and in which layout."""

    picture: str
    size: tuple[int, int]
    way: str
    quality: int = QUALITY
    scale: int = 1
    layout: str = AS_STORED

    def title(self):
        grain = "" if self.picture == "photograph" else f", {self.picture}"
        return "%dx%d%s" % (*self.size, grain)

    def coding(self):
        quality = "" if self.quality == QUALITY else f", quality {self.quality}"
        scale = "" if self.scale == 1 else f", at 1/{self.scale}"
        return self.way + quality + scale

    def scaled_size(self):
        return tuple(-(-side // self.scale) for side in self.size)


def cases_of(size):
    """What is decoded of a size, a kind of picture after the other."""
    ways = AT_EACH_SIZE
    if size in ALL_WAYS_AT:
        ways = [*WAYS, CMYK, LOSSLESS_GREY, LOSSLESS]
    yield from (Case("photograph", size, way) for way in ways)
    if size == ALL_WAYS_AT[0]:
        for way in AT_EACH_QUALITY:
            yield from (Case("photograph", size, way, quality) for quality in QUALITIES)
    if size in ALL_WAYS_AT:
        for way, scales in SCALED.items():
            yield from (Case("photograph", size, way, scale=scale) for scale in scales)
        yield from (Case("grain", size, way) for way in OF_GRAIN)


def cases():
    return [case for size in SIZES for case in cases_of(size)]


def layout_cases():
    """What is decoded in each layout, and as it is stored."""
    for size in LAYOUTS_AT:
        for way in AT_EACH_SIZE:
            for layout in (AS_STORED, *LAYOUTS):
                yield Case("photograph", size, way, layout=layout)


def pillow_cases():
    """What Pillow decodes."""
    for size in SIZES[SIZES.index(ALL_WAYS_AT[0]) :]:
        yield from (Case("photograph", size, way) for way in AT_EACH_SIZE)


def program_cases():
    """What whole programs decode."""
    size = SIZES[-1]
    yield from (Case("photograph", size, way) for way in OF_PROGRAMS)
    yield from (Case("photograph", size, way, scale=8) for way in SCALED)


@functools.lru_cache(maxsize=1)
def picture_of(name, size):
    return PICTURES[name](size)


def coded(case):
    """The bytes of a case's file."""
    picture = picture_of(case.picture, case.size)
    if case.way == LOSSLESS_GREY:
        return lossless(*case.size, [picture.convert("L").tobytes()])
    if case.way == LOSSLESS:
        return lossless(*case.size, [plane.tobytes() for plane in picture.split()])
    file = io.BytesIO()
    if case.way == CMYK:
        inks(picture).save(file, "JPEG", quality=case.quality, subsampling="4:4:4")
        return file.getvalue()
    picture.save(file, "PPM")
    words = ["cjpeg", "-quality", str(case.quality), *WAYS[case.way]]
    done = subprocess.run(words, input=file.getvalue(), capture_output=True, check=True)
    return done.stdout


def written(case, folder):
    """The path of a case's file in a folder, which is made where it isn't there."""
    words = (case.picture, *case.size, case.way, case.quality)
    path = folder / ("-".join(map(str, words)).replace(", ", "-").replace(":", "") + ".jpg")
    if not path.exists():
        path.write_bytes(coded(case))
    return path
