"""The calls, over buffers of Python."""

from __future__ import annotations

from contextlib import contextmanager
from ctypes import byref, c_size_t
from typing import TYPE_CHECKING, Any, Iterator, Literal

from . import library
from .errors import BadArgumentError, NoMemoryError, TruncatedError, error_of
from .options import LIMITS, Limits, Options, number_of, options_of
from .picture import (
    Info,
    Partial,
    Picture,
    Places,
    Segment,
    info_of,
    picture_over,
    picture_with_gaps,
    strides_of,
)

if TYPE_CHECKING:
    from typing_extensions import Buffer, Unpack


@contextmanager
def stream_of(data: Buffer) -> Iterator[tuple[int, int]]:
    """Gives the address of a stream, and how many bytes it has."""
    view = memoryview(data)
    if view.itemsize != 1:
        raise TypeError(f"data is a buffer of bytes, and not of items of {view.itemsize} bytes")
    view = view if view.c_contiguous else memoryview(view.tobytes())
    with library.held(view) as address:
        yield address, view.nbytes


def check(answer: int, told: library.Description, options: library.Options) -> None:
    """Raises what the library answers, unless there is a picture."""
    if answer in (library.OK, library.PARTIAL):
        return
    error = error_of(answer, told)
    if told.width:
        error.info = info_of(told, options)
    raise error


def describe(stream: tuple[int, int], options: library.Options) -> library.Description:
    """Describes the picture of a stream, in the library's values."""
    told = library.Description()
    check(library.read_info(*stream, byref(options), byref(told)), told, options)
    return told


def read_info(data: Buffer, **options: Unpack[Options]) -> Info:
    """Describes the picture of a stream, as decode with these options gives it, by its header. The
    options are those of the class Options."""
    wanted = options_of(options)
    with stream_of(data) as stream:
        return info_of(describe(stream, wanted), wanted)


def new_memory(size: int) -> memoryview:
    """Memory for a picture."""
    try:
        return memoryview(bytearray(size))
    except (MemoryError, OverflowError):
        raise NoMemoryError(f"a picture of {size} bytes") from None


def _memory_of(out: Buffer | None, stream: tuple[int, int], options: library.Options) -> memoryview:
    """The memory for a picture: new, or that of a caller. Where that has several dimensions, the
    options get its stride."""
    if out is None:
        return new_memory(describe(stream, options).size)
    view = memoryview(out)
    if view.readonly:
        raise BadArgumentError("out can't be written to")
    if view.ndim == 1 and view.itemsize == 1 and view.contiguous:
        return view
    info = info_of(describe(stream, options), options)
    if (view.shape, view.itemsize) != (info.shape, info.item_bytes):
        raise BadArgumentError(
            f"out has the shape {view.shape}, of items of {view.itemsize} bytes;"
            f" the picture has {info.shape}, of {info.item_bytes}"
        )
    if options.stride:
        raise BadArgumentError("stride is for an out of one dimension")
    if not view.c_contiguous and view.strides:
        if view.strides[1:] != strides_of(info)[1:] or view.strides[0] < info.row_bytes:
            raise BadArgumentError("out has gaps in its lines, or lines that overlap or go upwards")
        options.stride = view.strides[0]
    return view


def decode_at(
    call: Any, stream: tuple[int, int], address: int, room: int, options: library.Options
) -> library.Description:
    """Decodes the picture of a stream, by a call of the library, into `room` bytes of memory at an
    address, and returns what the library says of it. The caller holds both."""
    if address < sum(stream) and stream[0] < address + room:
        raise BadArgumentError("out overlaps data")
    told = library.Description()
    check(call(*stream, byref(options), address, room, byref(told)), told, options)
    return told


def picture_in(
    memory: memoryview, address: int, told: library.Description, options: library.Options
) -> Picture:
    """The picture that the library has decoded into some memory."""
    info = info_of(told, options)
    if options.stride > info.row_bytes:
        return picture_with_gaps(memory, address, options.stride, info)
    return picture_over(memory, info)


def partial_of(picture: Picture, told: library.Description) -> Partial:
    """What the library says of a picture as far as its stream goes."""
    fault = error_of(told.fault, told) if told.fault else None
    return Partial(picture, told.whole_rows, fault)


def _decoded(
    call: Any, data: Buffer, out: Buffer | None, given: Options
) -> tuple[Picture, library.Description]:
    """The picture that a call of the library decodes, and what it says of it."""
    options = options_of(given)
    with stream_of(data) as stream:
        memory = _memory_of(out, stream, options)
        with library.held(memory) as address:
            room = memory.nbytes
            if memory.ndim > 1 and options.stride:
                room = options.stride * (len(memory) - 1) + memory.nbytes // len(memory)
            told = decode_at(call, stream, address, room, options)
            return picture_in(memory, address, told, options), told


def decode(data: Buffer, *, out: Buffer | None = None, **options: Unpack[Options]) -> Picture:
    """Decodes the picture of a stream. The options are those of the class Options.

    `out` is writable memory for it, in place of new: a buffer of bytes of one dimension, or one of
    the picture's shape, whose lines may have gaps between them. Nothing else uses it meanwhile.
    """
    return _decoded(library.decode, data, out, options)[0]


def decode_partial(
    data: Buffer, *, out: Buffer | None = None, **options: Unpack[Options]
) -> Partial:
    """Decodes as decode does, but also a stream that is truncated or damaged: returns the picture
    of what it brings up to its first fault, the number of complete rows, and that fault or None.

    Raises an error where the header can't be decoded. It uses no more memory than decode. `out` and
    the options are those of decode.
    """
    return partial_of(*_decoded(library.decode_partial, data, out, options))


def _copied(call: Any, data: Buffer, options: library.Options, kind: int) -> bytes | None:
    """The data of a kind that a call of the library copies, which are no longer than the stream."""
    found = c_size_t()
    with stream_of(data) as stream:
        memory = new_memory(stream[1])
        with library.held(memory) as address:
            answer = call(*stream, byref(options), kind, address, stream[1], byref(found))
    if answer == library.NO_DATA:
        return None
    if answer != library.OK:
        raise error_of(answer)
    return bytes(memory[: found.value])


def metadata(
    data: Buffer,
    kind: Literal["exif", "xmp", "icc"],
    *,
    whole_image: bool = False,
    **limits: Unpack[Limits],
) -> bytes | None:
    """Returns Exif data from the TIFF header on, XMP data, or an ICC profile, of the segments
    before the frame; None where there are none.

    With `whole_image`, all segments up to the end of the image or its first fault count. That reads
    the scans, within the limits, which are those of the class Limits, and takes as long and as much
    memory as decoding at full size; find_metadata doesn't.
    """
    options = options_of(limits, LIMITS)
    number = number_of("kind", kind, library.KINDS)
    number |= library.WHOLE_IMAGE if whole_image else 0
    return _copied(library.metadata_within, data, options, number)


def joined_metadata(
    data: Buffer, kind: Literal["exif", "xmp", "extended_xmp", "iptc", "thumbnail"]
) -> bytes | None:
    """Returns metadata of the whole image that may stand in several segments, joined from them;
    None where there are none, as in bytes that are no JPEG stream.

    The kinds are Exif data from the TIFF header on, the last XMP data, the extended XMP data that
    these name, IPTC data, and the thumbnail in the Exif data, a JPEG stream as a rule. Nothing is
    decoded, so that in a damaged image there may be more than metadata.
    """
    number = number_of("kind", kind, library.JOINED_KINDS)
    return _copied(library.joined_metadata, data, library.Options(), number)


def _slice_of(place: library.Place) -> slice | None:
    if not place.offset:
        return None
    return slice(place.offset, place.offset + place.size)


def find_metadata(data: Buffer) -> Places:
    """Finds where the metadata of a whole image are, by its markers alone, as fast as a search for
    bytes. In a damaged image it may find more than metadata, since the scans aren't read."""
    found = library.Places()
    with stream_of(data) as stream:
        answer = library.find_metadata(*stream, byref(found))
    if answer != library.OK:
        raise error_of(answer)
    return Places(
        exif=_slice_of(found.exif),
        xmp=_slice_of(found.xmp),
        icc=[slice(it.offset, it.offset + it.size) for it in found.icc[: found.icc_parts]],
        icc_parts=found.icc_parts,
        stream_bytes=found.stream_bytes,
        ended=bool(found.ended),
    )


def next_segment(data: Buffer, start: int = 0) -> Segment:
    """Finds the first marker in the bytes from `start` on, whatever stands before it, and its
    segment. To list the segments, call it again with the `end` of each, up to EOI, 0xD9.

    Where the bytes end before the segment does, or contain no marker, the TruncatedError has
    `needed` and `skipped`; a length field less than 2 is a MalformedError.
    """
    found = library.Segment()
    with stream_of(data) as (address, size):
        if not 0 <= start <= size:
            raise BadArgumentError(f"start is a number from 0 to {size}, and not {start}")
        answer = library.next_segment(address + start, size - start, byref(found))
    if answer != library.OK:
        error = error_of(answer)
        if isinstance(error, TruncatedError):
            error.needed, error.skipped = found.needed, found.skipped
        raise error
    return Segment(found.marker, start + found.offset, found.size, start + found.end)


def version() -> str:
    """The version of the library."""
    number = library.version()
    return f"{number >> 16}.{number >> 8 & 255}.{number & 255}"
