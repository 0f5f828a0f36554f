"""What streams are read from, what pictures are written to, and what they can be read by."""

import array
import copy
import ctypes
import importlib.util
import math
import mmap
import pickle
import subprocess
import sys
import tempfile
import unittest
from unittest import mock

import zaxbriar
from common import bytes_of, file, numpy
from zaxbriar import library

STREAM = file("turned.jpg")
# One lossless pixel of three components of 16 bits.
DEEP = bytes_of(
    "FFD8 FFC3 0011 100001000103011100021100031100 FFC4 0016 00010101 00*14 0104 FFDA 000C"
    " 03010002000300010000 59 FFD9".split()
)
needs_numpy = unittest.skipUnless(numpy, "there is no numpy")


def decode_partially(*arguments, **options):
    return zaxbriar.decode_partial(*arguments, **options).picture


def address_of(buffer):
    with library.held(memoryview(buffer)) as address:
        return address


def with_orientation(orientation):
    """The stream with another orientation in its Exif data."""
    at = STREAM.index(b"\x01\x12\0\3\0\0\0\1\0") + 9
    return STREAM[:at] + bytes([orientation]) + STREAM[at + 1 :]


def lines_of(picture):
    """The lines of a picture, each a list of its pixels."""
    size = picture.info.pixel_bytes
    pixels = [bytes(picture)[at : at + size] for at in range(0, picture.info.size, size)]
    return [pixels[at : at + picture.width] for at in range(0, len(pixels), picture.width)]


def turned(lines, orientation):
    """The lines of a picture upright, by its orientation: where its rows and columns are seen in
    another direction, or as columns and rows (Exif 2.3, 4.6.4)."""
    if orientation in (3, 4, 6, 7):
        lines = lines[::-1]
    if orientation in (2, 3, 7, 8):
        lines = [line[::-1] for line in lines]
    return lines if orientation < 5 else [list(column) for column in zip(*lines)]


def parts_of(picture):
    """Parts of a picture: left, top, width and height."""
    height, width = picture.shape[:2]
    yield 0, 0, width, height
    yield 1, 2, width - 2, height - 3
    yield width - 1, height - 1, 1, 1
    yield 0, height // 2, width, 1
    yield width // 3, 0, 1, height


def shrunk(side, before, after):
    """What a side is where another becomes shorter."""
    return max(1, min(side, (side * after + before // 2) // before))


def fitted(width, height, most_width, most_height):
    """The size of a picture that is to fit within another, where 0 is any."""
    most_width, most_height = most_width or 65535, most_height or 65535
    if width <= most_width and height <= most_height:
        return width, height
    if height * most_width <= width * most_height:
        return most_width, shrunk(height, width, most_width)
    return shrunk(width, height, most_height), most_height


def boxed(lines, width, height):
    """The lines of a picture made smaller: each sample is the mean of those in its place."""
    columns = [x * len(lines[0]) // width for x in range(width + 1)]
    rows = [y * len(lines) // height for y in range(height + 1)]
    made = []
    for top, bottom in zip(rows, rows[1:]):
        boxes = [
            [pixel for line in lines[top:bottom] for pixel in line[left:right]]
            for left, right in zip(columns, columns[1:])
        ]
        made.append(
            [
                bytes((sum(samples) + len(box) // 2) // len(box) for samples in zip(*box))
                for box in boxes
            ]
        )
    return made


class Streams(unittest.TestCase):
    """The buffers that a stream is read from."""

    def setUp(self):
        self.wanted = bytes(zaxbriar.decode(STREAM))

    def address_read(self, data):
        """Where the library reads a stream that is decoded rightly."""
        with mock.patch.object(library, "decode", side_effect=library.decode) as call:
            self.assertEqual(bytes(zaxbriar.decode(data)), self.wanted)
        self.assertEqual(call.call_args.args[1], len(STREAM))
        return call.call_args.args[0]

    def test_are_read_without_a_copy(self):
        shared = (ctypes.c_uint8 * len(STREAM)).from_buffer_copy(STREAM)
        for data in (
            STREAM,
            bytearray(STREAM),
            memoryview(STREAM),
            memoryview(bytearray(b"..." + STREAM))[3:],
            array.array("B", STREAM),
            array.array("b", STREAM),
            shared,
        ):
            with self.subTest(type(data).__name__):
                self.assertEqual(self.address_read(data), address_of(data))

    def test_of_a_file_that_is_mapped(self):
        with tempfile.TemporaryFile() as written:
            written.write(STREAM)
            written.flush()
            with mmap.mmap(written.fileno(), 0, access=mmap.ACCESS_READ) as mapped:
                self.assertEqual(self.address_read(mapped), address_of(mapped))

    @needs_numpy
    def test_of_numpy(self):
        data = numpy.frombuffer(STREAM, numpy.uint8)
        self.assertFalse(data.flags.writeable)
        for each in (data, data.copy(), data.reshape(1, -1), data.astype(numpy.int8)):
            self.assertEqual(self.address_read(each), each.ctypes.data)

    def test_with_gaps_are_copied(self):
        spread = bytearray(2 * len(STREAM))
        spread[::2] = STREAM
        self.address_read(memoryview(spread)[::2])
        if numpy:
            self.address_read(numpy.frombuffer(spread, numpy.uint8)[::2])

    def test_are_held_while_they_are_read(self):
        data = bytearray(STREAM)

        def grow(*_):
            with self.assertRaises(BufferError):
                data.append(0)
            return library.MALFORMED

        with mock.patch.object(library, "decode", side_effect=grow):
            with self.assertRaises(zaxbriar.MalformedError):
                zaxbriar.decode(data)
        data.append(0)

    def test_of_other_types_are_refused(self):
        released = memoryview(STREAM)
        released.release()
        with self.assertRaises(ValueError):
            zaxbriar.decode(released)
        for data in ("text", None, 7, [255, 216], array.array("H", STREAM[:100])):
            for call in (zaxbriar.decode, zaxbriar.read_info, zaxbriar.find_metadata):
                with self.subTest(data=str(data)[:20]), self.assertRaises(TypeError):
                    call(data)

    def test_that_are_empty_are_truncated(self):
        for data in (b"", bytearray(), array.array("B")):
            for call in (zaxbriar.decode, zaxbriar.read_info, zaxbriar.next_segment):
                with self.subTest(call=call), self.assertRaises(zaxbriar.TruncatedError):
                    call(data)


class Pictures(unittest.TestCase):
    """The buffers that pictures are."""

    def test_are_buffers_of_their_shape(self):
        for options in ({}, {"layout": "grey"}, {"layout": "rgba", "scale": 4}):
            picture = zaxbriar.decode(STREAM, **options)
            view = memoryview(picture)
            channels = {"grey": ()}.get(picture.layout, (picture.info.pixel_bytes,))
            self.assertEqual(picture.shape, (picture.height, picture.width, *channels))
            self.assertEqual((view.shape, view.itemsize), (picture.shape, 1))
            self.assertTrue(view.c_contiguous and not view.readonly)
            self.assertEqual(len(bytes(picture)), picture.info.size)
            self.assertEqual(len(picture), picture.height)
            self.assertEqual(view.cast("B")[picture.info.row_bytes], bytes(picture[1])[0])

    def test_have_pixels_and_samples(self):
        picture = zaxbriar.decode(STREAM)
        data, (_, width, channels) = bytes(picture), picture.shape
        self.assertEqual(picture[3][2][1], data[(3 * width + 2) * channels + 1])
        picture[3][2][1] ^= 1
        self.assertNotEqual(bytes(picture), data)

    def test_of_16_bits(self):
        picture = zaxbriar.decode(DEEP)
        self.assertEqual((picture.shape, picture.format), ((1, 1, 3), "rgb"))
        self.assertEqual(memoryview(picture).itemsize, 2)
        self.assertEqual(list(picture[0][0]), [0x8000, 0x8001, 0x7FFF])
        self.assertEqual(zaxbriar.decode(DEEP, layout="rgb")[0][0][:], [128, 128, 127])
        wide = zaxbriar.decode(DEEP, layout="rgb16")
        self.assertEqual((wide.shape, bytes(wide)), (picture.shape, bytes(picture)))
        self.assertEqual(zaxbriar.decode(DEEP, layout="grey16")[0][:], [0x8000])
        samples = bytes(zaxbriar.decode(STREAM, layout="rgb"))
        wide = memoryview(zaxbriar.decode(STREAM, layout="rgb16")).cast("B").cast("H")
        self.assertEqual(list(wide), [257 * sample for sample in samples])

    def test_of_16_bits_a_pixel(self):
        picture, colours = (zaxbriar.decode(STREAM, layout=it) for it in ("rgb565", "rgb"))
        view = memoryview(picture)
        self.assertEqual(picture.shape, (picture.height, picture.width))
        self.assertEqual((view.itemsize, view.format.strip("<=@")), (2, "H"))
        for y in range(picture.height):
            wanted = [r >> 3 << 11 | g >> 2 << 5 | b >> 3 for r, g, b in colours[y]]
            self.assertEqual(list(picture[y]), wanted)

    def test_from_the_bottom(self):
        for options in ({}, {"layout": "abgr", "scale": 2}):
            down = zaxbriar.decode(STREAM, **options, bottom_up=False)
            up = zaxbriar.decode(STREAM, **options, bottom_up=True)
            self.assertEqual(up.info, down.info)
            self.assertEqual([bytes(row) for row in up], [bytes(row) for row in down][::-1])

    def test_upright(self):
        for orientation in range(1, 9):
            stream = with_orientation(orientation)
            for options in ({}, {"layout": "grey"}, {"layout": "rgb16", "scale": 2}):
                stored = zaxbriar.decode(stream, **options, upright=False)
                upright = zaxbriar.decode(stream, **options, upright=True)
                wanted = turned(lines_of(stored), orientation)
                self.assertEqual(lines_of(upright), wanted)
                self.assertEqual(upright.shape[:2], (len(wanted), len(wanted[0])))
                info = zaxbriar.read_info(stream, **options, upright=True)
                self.assertEqual((upright.shape, orientation), (info.shape, info.orientation))

    def test_upright_in_part(self):
        for orientation in range(1, 9):
            stream = with_orientation(orientation)[:320]
            stored = zaxbriar.decode_partial(stream, upright=False)
            upright = zaxbriar.decode_partial(stream, upright=True)
            wanted = turned(lines_of(stored.picture), orientation)
            self.assertEqual(lines_of(upright.picture), wanted)
            self.assertEqual(upright.whole_rows, stored.whole_rows)
            self.assertIn(stored.whole_rows, range(1, stored.picture.height))

    def test_by_components(self):
        planes = zaxbriar.decode(STREAM, transform="none")
        self.assertEqual(planes.shape, (planes.height, 3, planes.width))
        pixels = zaxbriar.decode(STREAM, transform="rgb")
        for x in range(planes.width):
            self.assertEqual([planes[5][i][x] for i in range(3)], list(pixels[5][x]))
        self.assertEqual(zaxbriar.decode(DEEP, transform="none").shape, (1, 1, 3))

    def test_luma(self):
        # (the first component is red, and isn't luma unless a transform says so)
        luma_of = {"luma": True, "transform": "ycbcr"}
        for options in ({}, {"scale": 2}):
            luma = zaxbriar.decode(STREAM, **options, **luma_of)
            planes = zaxbriar.decode(STREAM, **options, transform="none")
            self.assertEqual(luma.shape, (planes.height, planes.width))
            self.assertEqual([bytes(row) for row in luma], [bytes(lines[0]) for lines in planes])
            self.assertEqual((luma.format, luma.info.components), ("grey8", 1))
            self.assertEqual(luma.info.sampling, planes.info.sampling)
            colours = zaxbriar.decode(STREAM, **options, **luma_of, layout="rgba")
            self.assertEqual(bytes(colours), b"".join(bytes([y] * 3 + [255]) for y in bytes(luma)))
        part = zaxbriar.decode_partial(STREAM[:320], **luma_of)
        planes = zaxbriar.decode_partial(STREAM[:320], transform="none")
        self.assertEqual(part.whole_rows, planes.whole_rows)
        rows = zip(part.picture, planes.picture)
        self.assertTrue(all(bytes(row) == bytes(lines[0]) for row, lines in rows))
        self.assertEqual(zaxbriar.decode(DEEP, luma=True).shape, (1, 1, 3))
        for transform in ("of_stream", "rgb"):
            with self.assertRaises(zaxbriar.MalformedError):
                zaxbriar.decode(STREAM, luma=True, transform=transform)

    def test_parts(self):
        for orientation in range(1, 9):
            stream = with_orientation(orientation)
            for options in (
                {},
                {"upright": True, "layout": "rgba"},
                {"upright": True, "layout": "rgb16", "scale": 2},
                {"layout": "grey", "min_width": 9},
                {"upright": True, "luma": True, "transform": "ycbcr", "bottom_up": True},
            ):
                whole = zaxbriar.decode(stream, **options)
                lines = lines_of(whole)[:: -1 if options.get("bottom_up") else 1]
                for left, top, width, height in parts_of(whole):
                    crop = left, top, width, height
                    part = zaxbriar.decode(stream, **options, crop=crop)
                    wanted = [line[left : left + width] for line in lines[top : top + height]]
                    wanted = wanted[:: -1 if options.get("bottom_up") else 1]
                    self.assertEqual(lines_of(part), wanted)
                    self.assertEqual(part.shape, (height, width, *whole.shape[2:]))
                    info = zaxbriar.read_info(stream, **options, crop=crop)
                    self.assertEqual(info.decoding_bytes, whole.info.decoding_bytes)
                    self.assertEqual((info.shape, info.size), (part.shape, part.info.size))

    def test_parts_of_parts(self):
        whole_rows = set()
        for length in range(240, len(STREAM), 7):
            whole = zaxbriar.decode_partial(STREAM[:length])
            for left, top, width, height in parts_of(whole.picture):
                part = zaxbriar.decode_partial(STREAM[:length], crop=[left, top, width, height])
                lines = lines_of(whole.picture)[top : top + height]
                self.assertEqual(lines_of(part.picture), [it[left : left + width] for it in lines])
                self.assertEqual(part.whole_rows, min(max(whole.whole_rows - top, 0), height))
                self.assertEqual(type(part.fault), type(whole.fault))
                whole_rows.add(part.whole_rows)
        self.assertGreater(len(whole_rows), 3)

    def test_parts_that_are_not_inside(self):
        height, width, _ = zaxbriar.decode(STREAM).shape
        outside = self.assertRaisesRegex(zaxbriar.BadArgumentError, f"has {width}x{height} pixels")
        for crop in ((1, 0, width, 1), (0, height, 1, 1), (65535,) * 4):
            for call in (zaxbriar.read_info, zaxbriar.decode, zaxbriar.decode_partial):
                with self.subTest(crop), outside:
                    call(STREAM, crop=crop)
        whole = zaxbriar.decode(STREAM, crop=(0, 0, width, height))
        self.assertEqual(bytes(whole), bytes(zaxbriar.decode(STREAM, crop=None)))
        with self.assertRaises(zaxbriar.BadArgumentError):
            zaxbriar.decode(STREAM, crop=(0, 0, width, height), scale=2)
        zaxbriar.decode(STREAM, crop=(1, 2, 3, 4), max_samples=36)
        with self.assertRaises(zaxbriar.TooLargeError) as raised:
            zaxbriar.decode(STREAM, crop=(1, 2, 3, 4), max_samples=35)
        self.assertEqual(raised.exception.info.shape, (4, 3, 3))

    def test_within(self):
        for orientation in range(1, 9):
            stream = with_orientation(orientation)
            for others in ({}, {"scale": 2}, {"crop": (1, 2, 11, 9)}):
                # (the boxes are those of the stored picture, which lie otherwise in a turned one)
                whole = zaxbriar.decode(stream, **others)
                shown = zaxbriar.read_info(stream, upright=True, **others)
                for most in ((9, 9), (0, 7), (5, 0), (39, 39), [4, 3]):
                    size = fitted(whole.width, whole.height, *most)
                    small = zaxbriar.decode(stream, within=most, **others)
                    self.assertEqual(small.shape[1::-1], size)
                    self.assertEqual(lines_of(small), boxed(lines_of(whole), *size))
                    upright = zaxbriar.read_info(stream, upright=True, within=most, **others)
                    size = fitted(shown.width, shown.height, *most)
                    self.assertEqual((upright.width, upright.height), size)
        whole = zaxbriar.decode(STREAM)
        for most in (None, (0, 0), (65535, 65535), (whole.width, whole.height)):
            self.assertEqual(bytes(zaxbriar.decode(STREAM, within=most)), bytes(whole))

    @needs_numpy
    def test_are_arrays_of_numpy_without_a_copy(self):
        picture = zaxbriar.decode(STREAM)
        pixels = numpy.asarray(picture)
        self.assertEqual((pixels.shape, pixels.dtype), (picture.shape, numpy.uint8))
        self.assertEqual(pixels.tobytes(), bytes(picture))
        pixels[1, 2, 0] ^= 1
        self.assertEqual(picture[1][2][0], pixels[1, 2, 0])
        del picture
        self.assertEqual(pixels.copy().tobytes(), pixels.tobytes())
        deep = numpy.asarray(zaxbriar.decode(DEEP))
        self.assertEqual((deep.dtype, deep.tolist()), (numpy.uint16, [[[0x8000, 0x8001, 0x7FFF]]]))

    @unittest.skipUnless(importlib.util.find_spec("PIL"), "there is no Pillow")
    def test_are_images_of_pillow(self):
        from PIL import Image

        for layout, mode in (("grey", "L"), ("rgb", "RGB"), ("rgba", "RGBA")):
            picture = zaxbriar.decode(STREAM, layout=layout)
            image = Image.fromarray(picture)
            self.assertEqual((image.mode, image.size[::-1]), (mode, picture.shape[:2]))
            self.assertEqual(image.tobytes(), bytes(picture))

    def test_are_copied_and_pickled(self):
        for picture in (zaxbriar.decode(STREAM), zaxbriar.decode(DEEP)):
            for made in (copy.deepcopy(picture), pickle.loads(pickle.dumps(picture))):
                self.assertIsInstance(made, zaxbriar.Picture)
                self.assertEqual((made.info, bytes(made)), (picture.info, bytes(picture)))

    def test_need_no_numpy(self):
        code = "import sys, zaxbriar; zaxbriar.decode(sys.stdin.buffer.read())"
        code += "; assert 'numpy' not in sys.modules and 'PIL' not in sys.modules"
        subprocess.run([sys.executable, "-c", code], input=STREAM, check=True)


class Memory(unittest.TestCase):
    """The memory that a caller gives for a picture."""

    def setUp(self):
        self.wanted = zaxbriar.decode(STREAM)
        self.size = self.wanted.info.size

    def refuse(self, out, text, **options):
        with self.assertRaisesRegex(zaxbriar.BadArgumentError, text):
            zaxbriar.decode(STREAM, out=out, **options)

    def test_gets_the_picture(self):
        for call in (zaxbriar.decode, decode_partially):
            memory = bytearray([7]) * (self.size + 9)
            picture = call(STREAM, out=memory)
            self.assertEqual(memory, bytes(self.wanted) + bytes([7]) * 9)
            self.assertEqual(picture.shape, self.wanted.shape)
            self.assertEqual(bytes(picture), bytes(self.wanted))
            picture[0][0][0] ^= 1
            self.assertNotEqual(memory[0], self.wanted[0][0][0])

    def test_of_the_shape_of_the_picture(self):
        memory = memoryview(bytearray(self.size)).cast("B", self.wanted.shape)
        self.assertEqual(bytes(zaxbriar.decode(STREAM, out=memory)), bytes(self.wanted))
        self.assertEqual(memory.tobytes(), bytes(self.wanted))
        deep = memoryview(bytearray(6)).cast("H", (1, 1, 3))
        zaxbriar.decode(DEEP, out=deep)
        self.assertEqual(deep[0, 0, 1], 0x8001)
        other = zaxbriar.decode(STREAM, out=zaxbriar.decode(STREAM))
        self.assertEqual(bytes(other), bytes(self.wanted))

    def test_that_is_too_small(self):
        memory = bytearray([7]) * (self.size - 1)
        with self.assertRaises(zaxbriar.NoRoomError) as raised:
            zaxbriar.decode(STREAM, out=memory)
        self.assertEqual(raised.exception.info.size, self.size)
        self.assertEqual(memory, bytes([7]) * (self.size - 1))

    def test_of_another_shape(self):
        height, width, channels = self.wanted.shape
        for shape in ((height, width * channels), (height + 1, *self.wanted.shape[1:]), (1, 1, 3)):
            memory = memoryview(bytearray(math.prod(shape))).cast("B", shape)
            self.refuse(memory, "out has the shape")
        self.refuse(array.array("H", bytes(2 * self.size)), "items of 2 bytes")
        self.refuse(memoryview(bytearray(2 * self.size))[::2], "out has the shape")
        memory = memoryview(bytearray(self.size)).cast("B", self.wanted.shape)
        self.refuse(memory, "stride", stride=self.wanted.info.row_bytes)

    def test_that_cannot_be_written_to(self):
        self.refuse(bytes(self.size), "written")
        with self.assertRaises(TypeError):
            zaxbriar.decode(STREAM, out="text")

    def test_that_is_the_stream(self):
        memory = memoryview(bytearray(STREAM) + bytes(self.size))
        stream, rest = memory[: len(STREAM)], memory[len(STREAM) :]
        for out in (memory, memory[len(STREAM) - 1 :]):
            with self.assertRaisesRegex(zaxbriar.BadArgumentError, "overlaps"):
                zaxbriar.decode(stream, out=out)
        self.assertEqual(bytes(zaxbriar.decode(stream, out=rest)), bytes(self.wanted))

    def test_in_lines_with_gaps(self):
        info = self.wanted.info
        stride = info.row_bytes + 5
        memory = bytearray([7]) * (stride * info.height)
        picture = zaxbriar.decode(STREAM, out=memory, stride=stride)
        lines = [memory[y * stride : (y + 1) * stride] for y in range(info.height)]
        self.assertEqual(b"".join(line[:-5] for line in lines), bytes(self.wanted))
        self.assertTrue(all(line[-5:] == bytes([7]) * 5 for line in lines))
        self.assertEqual(picture.info.size, stride * (info.height - 1) + info.row_bytes)
        for read in (memoryview, bytes, pickle.dumps, copy.copy):
            with self.subTest(read), self.assertRaises(TypeError):
                read(picture)
        with self.assertRaises(BufferError):
            memory.append(0)
        with self.assertRaises(zaxbriar.NoRoomError):
            zaxbriar.decode(STREAM, out=memory[: picture.info.size - 1], stride=stride)

    @needs_numpy
    def test_of_numpy(self):
        height, width, channels = self.wanted.shape
        canvas = numpy.full((height + 4, width + 6, channels), 7, numpy.uint8)
        part = canvas[1 : height + 1, 2 : width + 2]
        picture = zaxbriar.decode(STREAM, out=part)
        wanted = numpy.full_like(canvas, 7)
        wanted[1 : height + 1, 2 : width + 2] = self.wanted
        self.assertTrue((canvas == wanted).all())
        array = numpy.asarray(picture)
        self.assertTrue((array == part).all() and numpy.shares_memory(array, part))
        frames = numpy.zeros((2, *self.wanted.shape), numpy.uint8)
        self.assertTrue((numpy.asarray(zaxbriar.decode(STREAM, out=frames[1])) == frames[1]).all())
        self.assertFalse(frames[0].any())
        canvas[:] = 7
        zaxbriar.decode(STREAM, out=canvas[2:5, 3:7], crop=(9, 8, 4, 3))
        wanted[:] = 7
        wanted[2:5, 3:7] = numpy.asarray(self.wanted)[8:11, 9:13]
        self.assertTrue((canvas == wanted).all())
        deep = numpy.asarray(zaxbriar.decode(DEEP, out=bytearray(6), stride=8))
        self.assertEqual((deep.dtype, deep.tolist()), (numpy.uint16, [[[0x8000, 0x8001, 0x7FFF]]]))

    @needs_numpy
    def test_of_numpy_that_does_not_fit(self):
        height, width, channels = self.wanted.shape
        canvas = numpy.zeros((height, 2 * width, 2 * channels), numpy.uint8)
        line = numpy.zeros((1, width, channels), numpy.uint8)
        for out in (
            canvas[:, :width, ::2],
            canvas[:, ::2, :channels],
            canvas[::-1, :width, :channels],
            numpy.zeros(self.wanted.shape[::-1], numpy.uint8).T,
            numpy.lib.stride_tricks.as_strided(line, self.wanted.shape, (0, *line.strides[1:])),
        ):
            self.refuse(out, "gaps")
        self.refuse(numpy.zeros(self.wanted.shape, numpy.uint16), "items of 2 bytes")
        self.assertFalse(canvas.any())


if __name__ == "__main__":
    unittest.main()
