"""Each exception, by a real stream or argument; the options; metadata and segments."""

import pickle
import resource
import subprocess
import sys
import typing
import unittest

import zaxbriar
from common import bytes_of, file
from many_scans import picture as picture_of_scans
from zaxbriar import library

STREAM = file("turned.jpg")
# The header of an extended sequential picture of 12 bits.
OF_12_BITS = bytes_of("FFD8 FFC1 000B 0C0008000801011100".split())


def raised_by(call, *arguments, **options):
    """The exception that a call raises."""
    try:
        call(*arguments, **options)
    except zaxbriar.Error as error:
        return error
    raise AssertionError("nothing was raised")


class Errors(unittest.TestCase):
    def causes(self):
        """Gives each class with a call that raises it, and the library's name of the answer."""
        decode, big = zaxbriar.decode, (16, 16)
        yield zaxbriar.MalformedError, "malformed stream", (decode, b"GIF89a"), {}
        yield zaxbriar.UnsupportedError, "unsupported feature", (decode, file("SOF9.jpg")), {}
        yield zaxbriar.TruncatedError, "truncated stream", (decode, STREAM[:-9]), {}
        yield zaxbriar.NoRoomError, "buffer too small", (decode, STREAM), {"out": bytearray(1)}
        yield zaxbriar.BadArgumentError, "bad argument", (decode, STREAM), {"scale": 3}
        yield zaxbriar.TooLargeError, "picture too large", (decode, STREAM), {"max_samples": 1}
        yield zaxbriar.TooLargeError, "picture too large", (decode, STREAM), {"max_bytes": 1}
        passes = "too many passes over the picture"
        yield zaxbriar.TooManyPassesError, passes, (decode, picture_of_scans(101, *big)), {}
        yield zaxbriar.NoMemoryError, "out of memory", (refused_memory,), {}

    def test_each_is_raised(self):
        missing = set(zaxbriar.Error.__subclasses__())
        for kind, name, call, options in self.causes():
            with self.subTest(kind.__name__):
                error = raised_by(*call, **options)
                self.assertIs(type(error), kind)
                self.assertEqual((error.name, error.answer), (name, kind.answer))
                self.assertTrue(error.text)
                self.assertEqual(str(error), error.text)
                missing.discard(kind)
        self.assertEqual(missing, set())

    def test_classes_have_the_answers(self):
        refusals = set(range(1, 11)) - {library.NO_DATA, library.PARTIAL}
        self.assertEqual({kind.answer for kind in zaxbriar.Error.__subclasses__()}, refusals)
        self.assertTrue(issubclass(zaxbriar.NoMemoryError, MemoryError))
        self.assertTrue(issubclass(zaxbriar.BadArgumentError, ValueError))
        self.assertTrue(issubclass(zaxbriar.NoRoomError, ValueError))

    def test_name_the_feature(self):
        error = raised_by(zaxbriar.read_info, file("SOF9.jpg"))
        self.assertEqual((error.feature, error.feature_argument), ("arithmetic", 0))
        error = raised_by(zaxbriar.read_info, OF_12_BITS)
        self.assertEqual((error.feature, error.feature_argument), ("precision", 12))

    def test_without_a_text_have_the_name(self):
        error = raised_by(zaxbriar.next_segment, b"")
        self.assertEqual((str(error), error.text), ("truncated stream", ""))

    def test_describe_the_picture(self):
        info = zaxbriar.read_info(STREAM)
        for options in ({"max_samples": 1}, {"out": bytearray(1)}):
            self.assertEqual(raised_by(zaxbriar.decode, STREAM, **options).info, info)
        self.assertIsNone(raised_by(zaxbriar.decode, b"GIF89a").info)

    def test_are_pickled(self):
        for error in (
            raised_by(zaxbriar.decode, STREAM, max_samples=1),
            raised_by(zaxbriar.read_info, OF_12_BITS),
            raised_by(zaxbriar.next_segment, b"\xff"),
        ):
            made = pickle.loads(pickle.dumps(error))
            self.assertIs(type(made), type(error))
            self.assertEqual((str(made), vars(made)), (str(error), vars(error)))

    def test_memory_is_refused(self):
        size = 20000 * 20000 * 3
        picture = raised_in_little_memory()
        self.assertEqual(picture.text, f"a picture of {size} bytes")
        # (the coefficients of a progressive picture have no room, which the library finds)
        coefficients = raised_in_little_memory(scale=8)
        self.assertIs(type(coefficients), zaxbriar.NoMemoryError)
        self.assertNotIn("picture of", coefficients.text)
        self.assertEqual(raised_in_little_memory(out=bytearray(9)).info.size, size)
        self.assertIs(type(raised_in_little_memory(max_bytes=10**9)), zaxbriar.TooLargeError)


def refused_memory():
    raise raised_in_little_memory()


def raised_in_little_memory(**options):
    """The exception that decoding a large progressive picture in 300 MB raises, in another
    process."""
    stream = picture_of_scans(1, 20000, 20000).replace(b"\xff\xc0", b"\xff\xc2")
    stream = stream.replace(bytes([3, 0, 0, 63, 0]), bytes([3, 0, 0, 0, 0]))
    code = f"""
import pickle, sys, zaxbriar
try:
    zaxbriar.decode(sys.stdin.buffer.read(), **{options})
except zaxbriar.Error as error:
    sys.stdout.buffer.write(pickle.dumps(error))
"""
    done = subprocess.run(
        [sys.executable, "-c", code],
        input=stream,
        stdout=subprocess.PIPE,
        check=True,
        preexec_fn=lambda: resource.setrlimit(resource.RLIMIT_AS, (300 << 20, 300 << 20)),
    )
    return pickle.loads(done.stdout)


class Options(unittest.TestCase):
    def test_by_other_names(self):
        for call in (zaxbriar.decode, zaxbriar.decode_partial, zaxbriar.read_info):
            with self.assertRaisesRegex(TypeError, "no option max_pases; .* layout, .* max_passes"):
                call(STREAM, max_pases=3)
        with self.assertRaisesRegex(TypeError, "no option layout"):
            zaxbriar.metadata(STREAM, "exif", layout="rgb")

    def test_of_other_values(self):
        for options, text in (
            ({"layout": "RGB"}, "layout is one of as_stored, grey, .* and not 'RGB'"),
            ({"layout": 2}, "layout is one of"),
            ({"transform": "rgba"}, "transform is one of"),
            ({"scale": 256}, "scale is a number from 0 to 255, and not 256"),
            ({"scale": -1}, "scale"),
            ({"min_width": 65536}, "min_width"),
            ({"max_passes": 2**64}, "max_passes"),
            ({"bottom_up": 2}, "bottom_up is a number from 0 to 1, and not 2"),
            ({"upright": 6}, "upright is a number from 0 to 1, and not 6"),
            ({"upright": True, "transform": "none"}, "an option doesn't exist"),
            ({"luma": 2}, "luma is a number from 0 to 1, and not 2"),
            ({"crop": (1, 1, 1)}, "crop has 4 numbers, and not 3"),
            ({"crop": (0, 0, 0, 0)}, r"crop has a column .*, and not \(0, 0, 0, 0\)"),
            ({"crop": (0, -1, 1, 1)}, "each of crop is a number from 0 to 65535, and not -1"),
            ({"crop": (0, 0, 1, 1), "transform": "none"}, "an option doesn't exist"),
            ({"within": (9, 65536)}, "each of within is a number from 0 to 65535, and not 65536"),
            ({"within": (9,)}, "within has 2 numbers, and not 1"),
            ({"within": (9, 9), "transform": "none"}, "an option doesn't exist"),
            ({"max_bytes": -1}, "max_bytes"),
        ):
            with self.subTest(options), self.assertRaisesRegex(zaxbriar.BadArgumentError, text):
                zaxbriar.decode(STREAM, **options)
        for options in (
            {"scale": 0.5},
            {"max_bytes": "1"},
            {"max_passes": None},
            {"crop": 1},
            {"crop": "0011"},
            {"within": 9},
            {"crop_left": 1},
        ):
            with self.subTest(options), self.assertRaises(TypeError):
                zaxbriar.decode(STREAM, **options)
        for kind in ("iptc", None, 1):
            with self.assertRaisesRegex(zaxbriar.BadArgumentError, "kind is one of exif, xmp, icc"):
                zaxbriar.metadata(STREAM, kind)
        for kind in ("icc", None, 4):
            with self.assertRaisesRegex(zaxbriar.BadArgumentError, "exif, xmp, extended_xmp, iptc"):
                zaxbriar.joined_metadata(STREAM, kind)
        for start in (-1, len(STREAM) + 1):
            with self.assertRaisesRegex(zaxbriar.BadArgumentError, "start"):
                zaxbriar.next_segment(STREAM, start)

    def test_of_sizes(self):
        width, height = zaxbriar.read_info(STREAM).shape[1::-1]
        for scale in (1, 2, 4, 8):
            picture = zaxbriar.decode(STREAM, scale=scale)
            self.assertEqual(picture.shape[:2], (-(-height // scale), -(-width // scale)))
            least = zaxbriar.decode(STREAM, min_width=picture.width, min_height=picture.height)
            self.assertEqual(bytes(least), bytes(picture))

    def test_limits_of_passes(self):
        stream = picture_of_scans(101, 16, 16)
        self.assertEqual(zaxbriar.MAX_PASSES, 100)
        self.assertEqual(zaxbriar.decode(stream, max_passes=101).shape, (16, 16, 3))
        self.assertEqual(zaxbriar.decode(stream, max_passes=0).shape, (16, 16, 3))
        self.assertEqual(zaxbriar.decode(picture_of_scans(100, 16, 16)).shape, (16, 16, 3))
        part = zaxbriar.decode_partial(file("101-scans.jpg"))
        self.assertIs(type(part.fault), zaxbriar.TooManyPassesError)
        self.assertIsNone(zaxbriar.decode_partial(file("100-scans.jpg")).fault)
        with self.assertRaises(zaxbriar.MalformedError):  # as the library calls it here
            zaxbriar.metadata(stream, "exif", whole_image=True)
        self.assertIsNone(zaxbriar.metadata(stream, "exif", whole_image=True, max_passes=0))

    def test_names_are_those_of_the_library(self):
        self.assertEqual(typing.get_args(zaxbriar.Layout), library.LAYOUTS)
        self.assertEqual(typing.get_args(zaxbriar.Transform), library.TRANSFORMS)


class Parts(unittest.TestCase):
    def test_of_cut_streams(self):
        whole = zaxbriar.decode(STREAM)
        row = whole.info.row_bytes
        faults = 0
        for length in range(len(STREAM) + 1):
            try:
                picture, rows, fault = zaxbriar.decode_partial(STREAM[:length])
            except zaxbriar.TruncatedError:
                continue
            self.assertEqual(picture.shape, whole.shape)
            self.assertEqual(bytes(picture)[: rows * row], bytes(whole)[: rows * row])
            if fault:
                faults += 1
                self.assertIs(type(fault), zaxbriar.TruncatedError)
                self.assertTrue(fault.text)
        self.assertGreater(faults, 10)
        self.assertEqual((fault, rows, bytes(picture)), (None, whole.height, bytes(whole)))


class Metadata(unittest.TestCase):
    def test_is_what_is_found(self):
        stream = file("data.jpg")
        places = zaxbriar.find_metadata(stream)
        self.assertTrue(places.ended)
        self.assertEqual((places.icc_parts, len(places.icc)), (2, 2))
        parts = {stream[place.start - 2]: stream[place] for place in places.icc}
        wanted = stream[places.exif], stream[places.xmp], parts[1] + parts[2]
        for kind, data in zip(("exif", "xmp", "icc"), wanted):
            self.assertTrue(data)
            self.assertEqual(zaxbriar.metadata(stream, kind, whole_image=True), data)
            if kind != "icc":
                self.assertEqual(zaxbriar.joined_metadata(bytearray(stream), kind), data)
        self.assertIsNone(zaxbriar.joined_metadata(b"", "iptc"))
        self.assertIsNone(zaxbriar.metadata(file("1x1.jpg"), "xmp"))
        self.assertEqual(zaxbriar.metadata(file("empty-exif.jpg"), "exif"), b"")
        self.assertIsInstance(raised_by(zaxbriar.metadata, b"", "exif"), zaxbriar.TruncatedError)

    def test_segments_are_listed(self):
        markers, at = [], 0
        while not markers or markers[-1] != 0xD9:
            segment = zaxbriar.next_segment(STREAM, at)
            self.assertEqual(segment.end, segment.offset + segment.size)
            markers.append(segment.marker)
            at = segment.end
        self.assertEqual((markers[0], at), (0xD8, len(STREAM)))
        self.assertTrue({0xDB, 0xC0, 0xC4, 0xDA} <= set(markers))

    def test_a_stream_is_read_piece_by_piece(self):
        read, kept, markers = 0, b"", []
        while not markers or markers[-1] != 0xD9:
            try:
                segment = zaxbriar.next_segment(kept)
                markers.append(segment.marker)
                kept = kept[segment.end :]
            except zaxbriar.TruncatedError as error:
                self.assertGreater(error.needed, 0)
                kept = kept[error.skipped :] + STREAM[read : read + error.needed]
                read += error.needed
        self.assertEqual(read, len(STREAM))

    def test_version(self):
        self.assertEqual(zaxbriar.version(), zaxbriar.__version__)


if __name__ == "__main__":
    unittest.main()
