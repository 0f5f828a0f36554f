"""The options, as keyword arguments and as the library has them."""

from __future__ import annotations

from operator import index
from typing import Any, Iterable, Literal, Mapping, TypedDict

from . import library
from .errors import BadArgumentError

MAX_PASSES = 100

Layout = Literal[
    "as_stored", "grey", "rgb", "rgba", "bgra", "bgr", "xrgb", "abgr", "rgb565", "grey16", "rgb16"
]
Transform = Literal["of_stream", "none", "rgb", "ycbcr", "cmyk", "ycck"]


class Limits(TypedDict, total=False):
    """What a picture may cost; 0 is no limit.

    max_samples: the most samples, width * height * components at the scale, by the header alone.
    max_bytes: the most memory that decoding may use besides the picture (`Info.decoding_bytes`), by
        the header alone.
    max_passes: how many times the scans may code the blocks of the picture, all together, which
        bounds the time: 100 unless it is given.
    """

    max_samples: int
    max_bytes: int
    max_passes: int


class ArrivingRowsOptions(Limits, total=False):
    """How to decode rows while their bytes arrive, at full size. The limits are those of the class
    Limits.

    transform: how the components are to be understood, "of_stream" unless it is given.
    """

    transform: Transform


class RowsOptions(Limits, total=False):
    """How to decode rows one by one: all that doesn't arrange samples. The limits are those of the
    class Limits.

    scale: 1, 2, 4 or 8, for exactly 1 / scale of each side, rounded up.
    min_width, min_height: for the least of 1/8, 1/4, 1/2 and 1 of the size at which the picture,
        before it is turned, is at least that wide or that high; 0: that side doesn't matter.
        `scale` goes before both.
    transform: how the components are to be understood, "of_stream" unless it is given.
    """

    scale: int
    min_width: int
    min_height: int
    transform: Transform


class Options(RowsOptions, total=False):
    """How to decode: the options of zaxbriar.h. The scale and the transform are those of the class
    RowsOptions, and the limits those of the class Limits.

    layout: how the samples of a pixel are arranged, "as_stored" unless it is given.
    stride: the bytes from one line to the next, for an `out` of one dimension; 0: no gaps.
    bottom_up: whether the picture's first row comes last in the buffer.
    upright: whether the picture is turned upright, as its `orientation` says; `shape`, `width` and
        `height` are then those of the upright picture.
    luma: whether a picture in colour gives its luma alone: the first component's samples, as a grey
        picture. One whose first component isn't luma, as in RGB or ink, or has fewer samples than
        the picture has pixels, is a MalformedError. Grey and lossless pictures aren't affected.
    crop: (left, top, width, height), for that part alone of the picture that the other options
        give: in pixels of that at its scale, and of the upright one if that is asked for; or None.
        One that isn't inside the picture is a BadArgumentError, and so is any with the transform
        "none". The whole stream is read all the same.
    within: (width, height), for the greatest picture of the same proportions that has at most so
        many columns and lines as it is shown, where 0 is any number; or None. It is that of the
        picture that the other options give, at its scale and of its part, and never greater: each
        sample is the mean of those in its place. To decode less of a large picture, ask for a
        scale, too. With the transform "none" it is a BadArgumentError.
    """

    layout: Layout
    stride: int
    bottom_up: bool
    upright: bool
    luma: bool
    crop: tuple[int, int, int, int] | None
    within: tuple[int, int] | None


LIMITS = ("max_samples", "max_bytes", "max_passes")
NAMES = {"layout": library.LAYOUTS, "transform": library.TRANSFORMS}
MOST_SIDE = 2**16 - 1
MOST = {
    "scale": 2**8 - 1,
    "min_width": MOST_SIDE,
    "min_height": MOST_SIDE,
    "bottom_up": 1,
    "upright": 1,
    "luma": 1,
    **dict.fromkeys(("stride", *LIMITS), 2**64 - 1),
}
# The options that are tuples, and the library's options for their numbers.
TUPLES = {
    "crop": ("crop_left", "crop_top", "crop_width", "crop_height"),
    "within": ("most_width", "most_height"),
}
OPTIONS = (*NAMES, *TUPLES, *MOST)
ARRIVING = ("transform", *LIMITS)
ROWS = ("scale", "min_width", "min_height", "transform", *LIMITS)


def number_of(name: str, value: Any, names: tuple[str | None, ...]) -> int:
    """The library's number for the name of a value."""
    if value is None or value not in names:
        there_are = ", ".join(filter(None, names))
        raise BadArgumentError(f"{name} is one of {there_are}, and not {value!r}")
    return names.index(value)


def _whole(name: str, value: Any, most: int) -> int:
    number = index(value)
    if not 0 <= number <= most:
        raise BadArgumentError(f"{name} is a number from 0 to {most}, and not {number}")
    return number


def _sides(name: str, value: Any) -> tuple[int, ...]:
    """The numbers of an option that is a tuple."""
    sides = tuple(_whole(f"each of {name}", side, MOST_SIDE) for side in value)
    if len(sides) != len(TUPLES[name]):
        raise BadArgumentError(f"{name} has {len(TUPLES[name])} numbers, and not {len(sides)}")
    if name == "crop" and 0 in sides[2:]:  # (of which zeros alone are none to the library)
        raise BadArgumentError(f"crop has a column and a line at least, and not {sides}")
    return sides


def _members(name: str, value: Any) -> Iterable[tuple[str, int]]:
    """The members of the library's options that an option sets, and what to."""
    if name in NAMES:
        return [(name, number_of(name, value, NAMES[name]))]
    if name in MOST:
        return [(name, _whole(name, value, MOST[name]))]
    return [] if value is None else zip(TUPLES[name], _sides(name, value))


def options_of(given: Mapping[str, Any], known: tuple[str, ...] = OPTIONS) -> library.Options:
    """The library's options for keyword arguments, which are among those known."""
    options = library.Options(max_passes=MAX_PASSES)
    for name, value in given.items():
        if name not in known:
            raise TypeError(f"there is no option {name}; there are {', '.join(known)}")
        for member, number in _members(name, value):
            setattr(options, member, number)
    return options
