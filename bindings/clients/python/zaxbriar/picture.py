"""What calls return: descriptions and pictures."""

from __future__ import annotations

import ctypes
from dataclasses import dataclass
from functools import lru_cache
from typing import TYPE_CHECKING, Any, NamedTuple

from . import library
from .errors import Error

if TYPE_CHECKING:
    from typing_extensions import Buffer


@dataclass(frozen=True)
class Info:
    """Describes a picture as it is decoded with the options; zaxbriar_picture of zaxbriar.h.

    shape: (height, width), or (height, width, channels) if a pixel has several samples; with the
        transform "none" (height, components, width).
    item_bytes: the bytes of a sample in this layout, 1 or 2; in "rgb565" those of a pixel, 2.
    size: the bytes of the picture, with the gaps between lines.
    row_bytes, pixel_bytes: those of a line without its gap, and of a pixel.
    decoding_bytes: the most memory that decoding uses for coefficients and samples.
    stream_bytes: how many bytes the image takes, after decode; or the header, after read_info.
    width, height: in pixels, as they were asked for: at the scale, upright, of the part, or within.
    layout: the one that was asked for.
    components: the samples of a pixel as it is stored: one of each component of the stream, 1, 3 or
        4; 1 if the luma alone was asked for.
    format: "grey8", "grey16", "rgb" or "cmyk", of the picture as it is stored.

    Of the stream:

    precision, sample_bytes: the bits of a sample, 2 to 16, and its bytes.
    process: "sequential", "progressive" or "lossless".
    orientation: 1 to 8, from Exif data before the frame; 1 if they give none.
    sampling: the horizontal and the vertical factor of each component.
    density_unit, horizontal_density, vertical_density: the pixels per inch (1) or centimetre (2),
        as the first JFIF segment before the frame gives them; zeros if none does.
    transform: the one that the header asks for, such as "ycbcr"; "none" for grey and lossless
        pictures, and None for libjpeg's big gamut colours, which aren't decoded.
    """

    shape: tuple[int, ...]
    item_bytes: int
    size: int
    row_bytes: int
    pixel_bytes: int
    decoding_bytes: int
    stream_bytes: int
    width: int
    height: int
    layout: str
    components: int
    precision: int
    sample_bytes: int
    process: str | None
    orientation: int
    format: str | None
    sampling: tuple[tuple[int, int], ...]
    density_unit: int
    horizontal_density: int
    vertical_density: int
    transform: str | None


# The members that are the library's numbers.
_NUMBERS = (
    "size row_bytes pixel_bytes decoding_bytes stream_bytes width height components precision"
    " sample_bytes orientation density_unit horizontal_density vertical_density"
).split()


# The layouts whose items have other than 8 bits.
_ITEM_BYTES = {"rgb565": 2, "grey16": 2, "rgb16": 2}


def info_of(told: library.Description, options: library.Options) -> Info:
    """The library's description in Python's values."""
    layout, process = library.LAYOUTS[told.layout], library.PROCESSES[told.process]
    item_bytes = _ITEM_BYTES.get(layout, 1) if told.layout else told.sample_bytes
    channels = told.pixel_bytes // item_bytes
    shape = (told.height, told.width) if channels == 1 else (told.height, told.width, channels)
    if library.TRANSFORMS[options.transform] == "none" and channels > 1 and process != "lossless":
        shape = told.height, channels, told.width
    return Info(
        shape=shape,
        item_bytes=item_bytes,
        layout=layout,
        process=process,
        format=library.FORMATS[told.format],
        sampling=tuple((each >> 4, each & 15) for each in told.sampling if each),
        transform=library.TRANSFORMS[told.transform] if told.transform else None,
        **{name: getattr(told, name) for name in _NUMBERS},
    )


def strides_of(info: Info) -> tuple[int, ...]:
    """The bytes from one to the next in each dimension, without gaps."""
    strides = [info.item_bytes]
    for length in reversed(info.shape[1:]):
        strides.insert(0, strides[0] * length)
    return tuple(strides)


class Picture:
    """A decoded picture: a writable buffer of `shape`, row by row, of unsigned samples of 8 bits;
    or of 16, where it is stored with more than 8, or has a layout of 16 bits. memoryview, bytes,
    numpy.asarray and whatever takes a buffer read it, without a copy except by bytes;
    `picture[y][x]` is a pixel.

    With gaps between its lines (decode's `out`), it isn't a buffer, but numpy.asarray takes it.
    """

    info: Info

    @property
    def shape(self) -> tuple[int, ...]:
        return self.info.shape

    @property
    def width(self) -> int:
        return self.info.width

    @property
    def height(self) -> int:
        return self.info.height

    @property
    def format(self) -> str | None:
        """The components as they are stored: "grey8", "grey16", "rgb" or "cmyk"."""
        return self.info.format

    @property
    def layout(self) -> str:
        """The layout that was asked for, "as_stored" or another."""
        return self.info.layout

    @property
    def __array_interface__(self) -> dict[str, Any]:
        typestr = "<u2" if self.info.item_bytes == 2 else "|u1"
        return {"version": 3, "shape": self.shape, "typestr": typestr}

    def __repr__(self) -> str:
        return f"<zaxbriar.Picture {self.shape}, {self.layout}, of {self.format}>"

    def __reduce__(self) -> tuple[Any, ...]:
        return picture_over, (bytearray(self), self.info)

    if TYPE_CHECKING:

        def __buffer__(self, flags: int) -> memoryview: ...

        def __len__(self) -> int: ...

        def __getitem__(self, line: int) -> Any: ...


class _WithGaps(Picture):
    """A picture in lines with gaps between them."""

    def __init__(self, memory: memoryview, address: int, stride: int) -> None:
        # (the memoryview keeps the memory where it is)
        self._place, self._memory = (address, stride), memory

    @property
    def __array_interface__(self) -> dict[str, Any]:
        address, stride = self._place
        strides = stride, *strides_of(self.info)[1:]
        return {**super().__array_interface__, "data": (address, False), "strides": strides}

    def __reduce__(self) -> tuple[Any, ...]:
        raise TypeError("a picture with gaps between its lines can't be copied or pickled")


@lru_cache(maxsize=64)
def _class_of(shape: tuple[int, ...], item_bytes: int) -> Any:
    """The class of pictures of a shape. Until Python 3.12 arrays of ctypes alone can be subclasses
    that are buffers of several dimensions."""
    item: Any = ctypes.c_uint16 if item_bytes == 2 else ctypes.c_uint8
    for length in reversed(shape[1:]):
        item = item * length
    return type("Picture", (Picture, ctypes.Array), {"_type_": item, "_length_": shape[0]})


def picture_over(memory: Buffer, info: Info) -> Picture:
    """A picture whose memory is a writable buffer, without gaps between its lines."""
    picture: Picture = _class_of(info.shape, info.item_bytes).from_buffer(memory)
    picture.info = info
    return picture


def picture_with_gaps(memory: memoryview, address: int, stride: int, info: Info) -> Picture:
    """A picture in the memory of a buffer: its first line is at an address, and so many bytes are
    from one to the next."""
    picture = _WithGaps(memory, address, stride)
    picture.info = info
    return picture


class Partial(NamedTuple):
    """What a stream brings up to its first fault.

    picture: what is missing of it is mid-grey.
    whole_rows: how many rows, from the top of the picture, or of its part, before it is turned, are
        complete in each scan that has begun.
    fault: the first fault, a MalformedError, an UnsupportedError, a TruncatedError or a
        TooManyPassesError that wasn't raised; None if the stream has no fault.
    """

    picture: Picture
    whole_rows: int
    fault: Error | None


class Places(NamedTuple):
    """Where the metadata of a whole image are: `data[places.exif]` are its Exif data.

    exif, xmp: of several the last; None if there are none.
    icc: the first parts of an ICC profile, at most 255, in the order of the stream. The two bytes
        before a part have its number, from 1, by which they are joined, and how many there are.
    icc_parts: how many parts of an ICC profile there are.
    stream_bytes: how many bytes there are up to the end of the last segment.
    ended: whether the end of the image was reached.
    """

    exif: slice | None
    xmp: slice | None
    icc: list[slice]
    icc_parts: int
    stream_bytes: int
    ended: bool


class Segment(NamedTuple):
    """A segment of some bytes, whose numbers count from the first of them.

    marker: the second byte of its marker, such as 0xE1 for APP1.
    offset, size: where its payload begins, and how many bytes that has.
    end: where it ends.
    """

    marker: int
    offset: int
    size: int
    end: int
