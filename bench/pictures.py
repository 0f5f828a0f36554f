"""The pictures that are measured: photographs of a Debian package, and a drawn one with grain."""

import functools

from PIL import Image, ImageChops, ImageOps

import grain

# Of plasma-workspace-wallpapers (GPL-2+), 2560x1600 pixels each: the first has detail as the median
# of them.
FOLDER = "/usr/share/wallpapers"
NAMES = ["BytheWater", "EveningGlow", "Path", "FallenLeaf", "OneStandsOut", "ColorfulCups"]
# Where six photographs stand in a sheet.
COLUMNS, ROWS = 3, 2
# The part of the drawn picture that smaller ones show begins so far from its left and its top.
CORNER = 100


@functools.cache
def opened(name):
    return Image.open(f"{FOLDER}/{name}/contents/images/2560x1600.jpg").convert("RGB")


def fitted(name, size):
    """The middle of a photograph that has the shape of a size, at this size."""
    return ImageOps.fit(opened(name), size, Image.Resampling.LANCZOS)


def photograph(size):
    """A photograph: larger than 2000x1500 a sheet of six, since each has but four megapixels."""
    width, height = size
    if width <= grain.WIDTH:
        return fitted(NAMES[0], size)
    sheet = Image.new("RGB", size)
    tile = width // COLUMNS, height // ROWS
    for number, name in enumerate(NAMES):
        place = number % COLUMNS * tile[0], number // COLUMNS * tile[1]
        sheet.paste(fitted(name, tile), place)
    return sheet


@functools.cache
def drawn():
    return Image.frombytes("RGB", (grain.WIDTH, grain.HEIGHT), grain.pixels())


def grained(size):
    """The drawn picture, or its part of this size."""
    if size == drawn().size:
        return drawn()
    return drawn().crop((CORNER, CORNER, CORNER + size[0], CORNER + size[1]))


def inks(picture):
    """The cyan, magenta, yellow and black of a picture, black in place of what is in all three."""
    colours = ImageChops.invert(picture).split()
    black = functools.reduce(ImageChops.darker, colours)
    return Image.merge("CMYK", [*(ImageChops.subtract(one, black) for one in colours), black])


PICTURES = {"photograph": photograph, "grain": grained}
