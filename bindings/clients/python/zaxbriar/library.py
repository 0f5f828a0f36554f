"""The C library: where it is found, and the structs and calls of zaxbriar.h, by ctypes, which
releases the interpreter's lock during a call. Programs use the package's own calls."""

from __future__ import annotations

import ctypes
import os
from contextlib import contextmanager
from ctypes import (
    POINTER,
    Structure,
    byref,
    c_char,
    c_char_p,
    c_int,
    c_size_t,
    c_ssize_t,
    c_uint8,
    c_uint16,
    c_uint32,
    c_uint64,
    c_void_p,
)
from typing import Any, Iterator

NAME = "libzaxbriar.so.0"

(
    OK,
    MALFORMED,
    UNSUPPORTED,
    TRUNCATED,
    NO_MEMORY,
    NO_ROOM,
    BAD_ARGUMENT,
    NO_DATA,
    TOO_LARGE,
    PARTIAL,
    TOO_MANY_PASSES,
    END,
    WAITING,
) = range(13)
WHOLE_IMAGE = 16

# The names of the library's numbers, each in its place.
LAYOUTS = (
    *("as_stored", "grey", "rgb", "rgba", "bgra", "bgr", "xrgb", "abgr"),
    *("rgb565", "grey16", "rgb16"),
)
TRANSFORMS = ("of_stream", "none", "rgb", "ycbcr", "cmyk", "ycck")
PROCESSES = (None, "sequential", "progressive", "lossless")
FORMATS = (None, "grey8", "grey16", "rgb", "cmyk")
FEATURES = (
    None,
    "hierarchical",
    "arithmetic",
    "precision",
    "components",
    "dnl",
    "subsampling",
    "factors",
    "transform",
)
KINDS = (None, "exif", "xmp", "icc")
JOINED_KINDS = (None, "exif", "xmp", None, "extended_xmp", "iptc", "thumbnail")


class Options(Structure):
    """zaxbriar_options."""

    _fields_ = [
        ("max_samples", c_uint64),
        ("stride", c_uint64),
        ("min_width", c_uint16),
        ("min_height", c_uint16),
        ("transform", c_uint8),
        ("layout", c_uint8),
        ("scale", c_uint8),
        ("bottom_up", c_uint8),
        ("max_bytes", c_uint64),
        ("memory", c_void_p),
        ("places", c_void_p),
        ("max_passes", c_uint64),
        ("upright", c_uint8),
        ("luma", c_uint8),
        ("reserved_bytes", c_uint8 * 6),
        ("crop_left", c_uint16),
        ("crop_top", c_uint16),
        ("crop_width", c_uint16),
        ("crop_height", c_uint16),
        ("most_width", c_uint16),
        ("most_height", c_uint16),
        ("reserved_half", c_uint8 * 4),
        ("reserved_words", c_uint64 * 6),
    ]


class Description(Structure):
    """zaxbriar_picture."""

    _fields_ = [
        ("size", c_uint64),
        ("row_bytes", c_uint64),
        ("decoding_bytes", c_uint64),
        ("stream_bytes", c_uint64),
        ("width", c_uint32),
        ("height", c_uint32),
        ("whole_rows", c_uint32),
        ("pixel_bytes", c_uint8),
        ("layout", c_uint8),
        ("components", c_uint8),
        ("precision", c_uint8),
        ("sample_bytes", c_uint8),
        ("process", c_uint8),
        ("orientation", c_uint8),
        ("format", c_uint8),
        ("feature", c_uint8),
        ("feature_argument", c_uint8),
        ("sampling", c_uint8 * 4),
        ("fault", c_uint8),
        ("density_unit", c_uint8),
        ("horizontal_density", c_uint16),
        ("vertical_density", c_uint16),
        ("transform", c_uint8),
        ("reserved_byte", c_uint8),
        ("plane_width", c_uint16 * 4),
        ("plane_height", c_uint16 * 4),
        ("reserved_bytes", c_uint8 * 6),
        ("planes_size", c_uint64),
        ("reserved", c_uint8 * 112),
        ("text", c_char * 112),
    ]


class Place(Structure):
    """zaxbriar_place."""

    _fields_ = [("offset", c_uint64), ("size", c_uint64)]


class Places(Structure):
    """zaxbriar_places."""

    _fields_ = [
        ("exif", Place),
        ("xmp", Place),
        ("stream_bytes", c_uint64),
        ("icc_parts", c_uint32),
        ("ended", c_uint32),
        ("reserved", c_uint64 * 4),
        ("icc", Place * 255),
    ]


class Segment(Structure):
    """zaxbriar_segment."""

    _fields_ = [
        ("offset", c_uint64),
        ("size", c_uint64),
        ("end", c_uint64),
        ("needed", c_uint64),
        ("skipped", c_uint64),
        ("marker", c_uint8),
        ("reserved", c_uint8 * 23),
    ]


def _load() -> ctypes.CDLL:
    """The library: where ZAXBRIAR_LIBRARY says, beside this file as a wheel has it, or where the
    system finds it."""
    beside = os.path.join(os.path.dirname(os.path.abspath(__file__)), NAME)
    place = os.environ.get("ZAXBRIAR_LIBRARY") or (beside if os.path.exists(beside) else NAME)
    try:
        return ctypes.CDLL(place)
    except OSError as error:
        raise ImportError(f"{error} (ZAXBRIAR_LIBRARY can name the library)") from None


_library = _load()


def _call(name: str, *arguments: Any, result: Any = c_int) -> Any:
    """A call of the library, with the types of its arguments and its result."""
    function = getattr(_library, f"zaxbriar_{name}")
    function.argtypes, function.restype = arguments, result
    return function


_BYTES = (c_void_p, c_size_t)
_OPTIONS = POINTER(Options)
_DESCRIPTION = POINTER(Description)
read_info = _call("read_info", *_BYTES, _OPTIONS, _DESCRIPTION)
decode = _call("decode", *_BYTES, _OPTIONS, *_BYTES, _DESCRIPTION)
decode_partial = _call("decode_partial", *_BYTES, _OPTIONS, *_BYTES, _DESCRIPTION)
rows_new = _call("rows_new", *_BYTES, _OPTIONS, POINTER(c_void_p), _DESCRIPTION)
rows_next = _call("rows_next", c_void_p, *_BYTES)
rows_refusal = _call("rows_refusal", c_void_p, _DESCRIPTION)
rows_free = _call("rows_free", c_void_p, result=None)
fed_new = _call("fed_new", _OPTIONS, POINTER(c_void_p))
fed_feed = _call("fed_feed", c_void_p, *_BYTES)
fed_info = _call("fed_info", c_void_p, _DESCRIPTION)
fed_show = _call("fed_show", c_void_p, *_BYTES, _DESCRIPTION)
fed_rows = _call("fed_rows", c_void_p, _DESCRIPTION)
fed_next = _call("fed_next", c_void_p, *_BYTES)
fed_end = _call("fed_end", c_void_p)
fed_refusal = _call("fed_refusal", c_void_p, _DESCRIPTION)
fed_free = _call("fed_free", c_void_p, result=None)
metadata_within = _call("metadata_within", *_BYTES, _OPTIONS, c_int, *_BYTES, POINTER(c_size_t))
joined_metadata = _call("joined_metadata", *_BYTES, _OPTIONS, c_int, *_BYTES, POINTER(c_size_t))
find_metadata = _call("find_metadata", *_BYTES, POINTER(Places))
next_segment = _call("next_segment", *_BYTES, POINTER(Segment))
answer_name = _call("answer_name", c_int, result=c_char_p)
version = _call("version", result=c_uint32)


class _Buffer(Structure):
    """Py_buffer, of which only the address is read."""

    _fields_ = [
        ("address", c_void_p),
        ("exporter", c_void_p),
        ("size", c_ssize_t),
        ("item_bytes", c_ssize_t),
        ("is_readonly", c_int),
        ("dimensions", c_int),
        ("others", c_void_p * 5),
    ]


_GAPS_ALLOWED = 0x18  # PyBUF_STRIDES
# (by index they are this module's own, whose argument types nobody else sets)
_get_buffer = ctypes.pythonapi["PyObject_GetBuffer"]
_get_buffer.argtypes = [ctypes.py_object, POINTER(_Buffer), c_int]
_release_buffer = ctypes.pythonapi["PyBuffer_Release"]
_release_buffer.argtypes = [POINTER(_Buffer)]
_release_buffer.restype = None


@contextmanager
def held(view: memoryview) -> Iterator[int]:
    """Gives the address of a memoryview's first byte, which stays where it is meanwhile."""
    buffer = _Buffer()
    _get_buffer(view, byref(buffer), _GAPS_ALLOWED)
    try:
        yield buffer.address or 0
    finally:
        _release_buffer(byref(buffer))
