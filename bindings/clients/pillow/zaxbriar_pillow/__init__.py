"""`import zaxbriar_pillow`: from then on Pillow decodes JPEG pictures by zaxbriar.

Pillow's own Python code still reads the header and the metadata, and libjpeg still writes.
"""

import ctypes
import threading
import warnings
from array import array

import zaxbriar
from PIL import Image, ImageFile, JpegImagePlugin
from zaxbriar import calls, library

# How many times the scans of a file may code the blocks of its picture, all together: a program may
# set another number, or 0 for any. A file with more is damaged at the scan that would exceed it.
max_passes = zaxbriar.MAX_PASSES

# How many pictures were decoded so, how many of them right into the image's memory, and of how many
# there was only a part, since their files are truncated or damaged.
decoded = 0
decoded_in_place = 0
decoded_partially = 0

# For each mode of Pillow's: the formats that the library decodes to it, its layout in the memory of
# an image with the bytes of a pixel, and its layout without padding.
_MODES = {
    "L": (("grey8", "rgb"), "grey", 1, "grey"),
    "RGB": (("grey8", "rgb"), "rgba", 4, "rgb"),
    "CMYK": (("cmyk",), "as_stored", 4, "as_stored"),
}


class _ArrowArray(ctypes.Structure):
    """The first members of ArrowArray, by which Pillow exports an image's memory since 11.2."""


_ArrowArray._fields_ = [
    *((name, ctypes.c_int64) for name in ("length", "nulls", "offset", "n_buffers", "n_children")),
    ("buffers", ctypes.POINTER(ctypes.c_void_p)),
    ("children", ctypes.POINTER(ctypes.POINTER(_ArrowArray))),
]
_pointer_of = ctypes.pythonapi.PyCapsule_GetPointer
_pointer_of.restype = ctypes.c_void_p
_pointer_of.argtypes = [ctypes.py_object, ctypes.c_char_p]


def _exported_memory_of(image, pixel_bytes):
    """What `_memory_of` returns, by Arrow's interface, for an image that is one block."""
    if Image.core.get_alignment() != 1:  # Arrow's interface has no word for gaps between lines
        return None
    try:
        exported = image.__arrow_c_array__()
    except ValueError:  # several blocks
        return None
    capsule = exported[-1] if isinstance(exported, tuple) else exported
    array = _ArrowArray.from_address(_pointer_of(capsule, b"arrow_array"))
    while array.n_children == 1:
        array = array.children[0].contents
    width, height = image.size
    bytes_each = width * height * pixel_bytes // max(1, array.length)  # a byte, or a whole pixel
    if bytes_each not in (1, pixel_bytes) or array.offset or array.n_buffers != 2:
        return None
    return array.buffers[1], width * pixel_bytes


def _lines_of(image, pixel_bytes):
    """What `_memory_of` returns, by the addresses of the lines, which Pillow gives up to 11."""
    try:
        with warnings.catch_warnings():
            warnings.simplefilter("ignore", DeprecationWarning)
            lines = dict(image.unsafe_ptrs)["image"]
    except (AttributeError, KeyError):  # other versions of Pillow
        return None
    width, height = image.size
    starts = (ctypes.c_uint64 * height).from_address(lines)
    stride = starts[1] - starts[0] if height > 1 else width * pixel_bytes
    if (
        stride < width * pixel_bytes
        or bytes(starts)
        != array("Q", range(starts[0], starts[0] + height * stride, stride)).tobytes()
    ):
        return None
    return starts[0], stride


def _memory_of(image, pixel_bytes):
    """The address of an image's first line and the bytes from a line to the next, or None unless
    all lines are equally far."""
    if hasattr(image, "__arrow_c_array__"):
        return _exported_memory_of(image, pixel_bytes)
    return _lines_of(image, pixel_bytes)


_GREATEST_BLOCK = (1 << 31) - 4096
_allocation = threading.Lock()


def _load_prepare(self, prepare=JpegImagePlugin.JpegImageFile.load_prepare):
    """Allocates the image's memory as one block, also above Pillow's block size of 16 MB, so that
    there is no second copy of a large picture."""
    _, _, pixel_bytes, _ = _MODES.get(self.mode, (None, None, 0, None))
    wanted = self.size[0] * self.size[1] * pixel_bytes + 4095 & ~4095
    with _allocation:
        kept = Image.core.get_block_size()
        if not kept < wanted <= _GREATEST_BLOCK:
            return prepare(self)
        Image.core.set_block_size(wanted)
        try:
            return prepare(self)
        finally:
            Image.core.set_block_size(kept)


_TABLES = {0xC4, 0xCC, 0xDB, 0xDD, 0xFE, *range(0xE0, 0xF0)}


def _joined(stream):
    """A stream of tables alone and the image that uses them, as one stream; or the stream as it is.
    The library decodes one image, whose tables are in its own stream; libjpeg keeps those that it
    has read before."""
    at = 2
    while stream[at : at + 1] == b"\xff" and len(stream) > at + 3 and stream[at + 1] in _TABLES:
        at += 2 + int.from_bytes(stream[at + 2 : at + 4], "big")
    if at == 2 or stream[at : at + 4] != b"\xff\xd9\xff\xd8":
        return stream
    return stream[:at] + stream[at + 4 :]


def _decoded(data, is_partial, **options):
    """The picture of a stream, or of what it brings up to its first fault."""
    if is_partial:
        return zaxbriar.decode_partial(data, **options).picture
    return zaxbriar.decode(data, **options)


def _has_lines(told, pixel_bytes):
    """Whether a picture is decoded line by line: a sequential one that is stored with as many bytes
    a pixel as the image has. (Others are read to their end before the first line, with as much
    memory; and to each colour a fourth byte would be added by a loop in Python, which costs more
    time than the memory is worth.)

    Not beside other threads, which may keep the interpreter's lock for 5 ms after each call."""
    return (
        told.components == pixel_bytes
        and library.PROCESSES[told.process] == "sequential"
        and threading.active_count() == 1
    )


def _by_lines(stream, memory, options, told):
    """Decodes line by line right into an image's memory, besides which there are samples of two
    rows of MCUs, and says whether the stream has no fault. If it has one, the image is blank."""
    (address, stride), size = memory, told.row_bytes
    lines = range(address, address + told.height * stride, stride)
    rows = ctypes.c_void_p()
    begun = library.rows_new(*stream, ctypes.byref(options), ctypes.byref(rows), None)
    if begun != library.OK:
        return False
    try:
        is_whole = (
            all(library.rows_next(rows, line, size) == library.OK for line in lines)
            and library.rows_next(rows, address, size) == library.END
        )
    finally:
        library.rows_free(rows)
    if not is_whole:
        for line in lines:
            ctypes.memset(line, 0, size)
    return is_whole


class ZaxbriarDecoder(ImageFile.PyDecoder):
    """Pillow's decoder `jpeg`: its arguments are the raw mode, the mode of the colours in the file,
    and a scale."""

    _pulls_fd = True

    def setimage(self, im, extents=None):
        is_box = isinstance(extents, tuple) and [type(each) for each in extents] == [int] * 4
        if extents is not None and not is_box:  # (as Pillow's own decoder says it)
            raise ValueError("invalid extents")
        super().setimage(im, extents)

    def _in_place(self, stream, call, options, mode, told):
        """Decodes right into the image, and says whether that was possible."""
        global decoded_in_place
        _, layout, pixel_bytes, _ = _MODES[mode]
        if self.state.extents() != (0, 0, *self.im.size):
            return False
        memory = _memory_of(self.im, pixel_bytes)
        if memory is None:
            return False
        has_lines = call is library.decode and _has_lines(told, pixel_bytes)
        if not (has_lines and _by_lines(stream, memory, options, told)):
            address, options.stride = memory
            options.layout = library.LAYOUTS.index(layout)
            width, height = self.im.size
            room = options.stride * (height - 1) + width * pixel_bytes
            calls.decode_at(call, stream, address, room, options)
        decoded_in_place += 1
        return True

    def _converted(self, data, is_partial, scale, mode):
        """Decodes into memory of its own, as the picture is stored, and converts it to the mode and
        the size."""
        picture = _decoded(data, is_partial, scale=scale, max_passes=max_passes)
        if picture.info.sample_bytes != 1:
            raise OSError(f"samples of {picture.info.precision} bits")
        stored = {1: "L", 3: "RGB", 4: "CMYK"}[picture.info.components]
        image = Image.frombytes(stored, (picture.width, picture.height), bytes(picture))
        if image.size != (self.state.xsize, self.state.ysize):  # a lossless picture isn't scaled
            image = image.reduce(max(1, round(picture.width / self.state.xsize)))
        self.set_as_raw(image.convert(mode).tobytes(), mode)

    def _load(self, data, is_partial=False):
        """Decodes a stream into the image, or what it brings up to its first fault."""
        global decoded
        mode = self.args[0].partition(";")[0]
        scale = self.args[2] if len(self.args) > 2 else 1
        options = library.Options(scale=scale, max_passes=max_passes)
        formats, _, _, packed = _MODES.get(mode, ((), None, None, None))
        with calls.stream_of(data) as stream:
            told = calls.describe(stream, options)
            is_plain = (
                (told.width, told.height) == (self.state.xsize, self.state.ysize)
                and told.precision == 8
                and library.FORMATS[told.format] in formats
                and self.im.mode == mode
            )
            call = library.decode_partial if is_partial else library.decode
            if is_plain and self._in_place(stream, call, options, mode, told):
                pass
            elif is_plain:
                wanted = {"scale": scale, "layout": packed, "max_passes": max_passes}
                self.set_as_raw(bytes(_decoded(data, is_partial, **wanted)), mode)
            else:
                self._converted(data, is_partial, scale, mode)
        decoded += 1

    def _load_partially(self, stream):
        """Loads what there is of a stream with a fault; where its header has the fault the image
        stays blank."""
        global decoded_partially
        try:
            self._load(stream, is_partial=True)
        except zaxbriar.NoMemoryError:
            raise
        except zaxbriar.Error:
            return -1, -2
        decoded_partially += 1
        return -1, 0

    def decode(self, buffer):
        stream = _joined(self.fd.read())
        try:
            self._load(stream)
        except zaxbriar.NoMemoryError:
            raise
        except zaxbriar.Error as error:
            if ImageFile.LOAD_TRUNCATED_IMAGES:
                return self._load_partially(stream)
            raise OSError(f"zaxbriar: {error}") from error
        return -1, 0


Image.register_decoder("jpeg", ZaxbriarDecoder)
JpegImagePlugin.JpegImageFile.load_prepare = _load_prepare
