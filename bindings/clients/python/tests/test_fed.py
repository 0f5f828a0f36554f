"""Streams in pieces: beside decode_partial of the same bytes, what is freed and kept, threads."""

import gc
import pickle
import resource
import threading
import unittest
from concurrent.futures import ThreadPoolExecutor

import zaxbriar
from common import TOP, file
from many_scans import picture as picture_of_scans

STREAM = file("turned.jpg")
PHOTO = (TOP / "examples/rocket.jpg").read_bytes()
OPTIONS = (
    {},
    {"layout": "rgba", "upright": True},
    {"layout": "rgb565", "bottom_up": True, "stride": 2000},
    {"scale": 2},
    {"min_width": 20, "min_height": 20, "luma": True},
    {"crop": (1, 1, 2, 2), "layout": "rgb16"},
    {"within": (10, 10), "upright": True},
    {"transform": "none"},
    {"transform": "ycck"},
    {"max_passes": 1},
    {"max_samples": 100},
)


def told_by(error):
    """What an exception says of its fault, or None."""
    if error is None:
        return None
    feature = getattr(error, "feature", None), getattr(error, "feature_argument", 0)
    return type(error), error.text, feature, error.info


def outcome_of(call):
    """What a call gives of a picture, or what its exception says."""
    try:
        found = call()
    except zaxbriar.Error as error:
        return told_by(error)
    if isinstance(found, zaxbriar.Partial):
        info = found.picture.info
        # (one with gaps is no buffer)
        pixels = bytes(found.picture) if info.size == info.height * info.row_bytes else None
        return info, pixels, found.whole_rows, told_by(found.fault)
    return found


class Pieces(unittest.TestCase):
    def compare(self, fed, data, options):
        self.assertEqual(fed.size, len(data))
        wanted = outcome_of(lambda: zaxbriar.read_info(data, **options))
        is_cut = isinstance(wanted, tuple) and wanted[0] is zaxbriar.TruncatedError
        self.assertEqual(outcome_of(fed.info), None if is_cut else wanted)
        wanted = outcome_of(lambda: zaxbriar.decode_partial(data, **options))
        self.assertEqual(outcome_of(fed.show), wanted)

    def check(self, data, size, growth, **options):
        with zaxbriar.feed(**options) as fed:
            self.compare(fed, b"", options)
            shown = 0
            for start in range(0, len(data), size):
                fed.feed(data[start : start + size])
                if fed.size >= growth * shown or fed.size == len(data):
                    self.compare(fed, data[: fed.size], options)
                    shown = fed.size

    def test_show_what_decode_partial_gives(self):
        names = ("turned.jpg", "described.jpg", "264x256.jpg", "cut.jpg", "SOF9.jpg", "gif.gif")
        for data in map(file, names):
            for size in (1, 7, 4096):
                self.check(data, size, 1.1)
            for options in OPTIONS:
                self.check(data, 7, 1.5, **options)
        self.check(PHOTO, 4096, 1.5, layout="rgb")
        self.check(picture_of_scans(101, 8, 8), 7, 1.1)

    def test_tell_what_can_come(self):
        with zaxbriar.feed(layout="rgb") as fed:
            self.assertIsNone(fed.info())
            with self.assertRaises(zaxbriar.TruncatedError):
                fed.show()
            fed.feed(PHOTO[: len(PHOTO) // 2])
            self.assertEqual(fed.info(), zaxbriar.read_info(PHOTO, layout="rgb"))
            part = fed.show()
            self.assertIsInstance(part.fault, zaxbriar.TruncatedError)
            self.assertEqual(part.picture.shape, (427, 640, 3))
            fed.feed(PHOTO[len(PHOTO) // 2 :])
            whole = fed.show()
            self.assertIsNone(whole.fault)
            self.assertEqual(bytes(whole.picture), bytes(zaxbriar.decode(PHOTO, layout="rgb")))
        self.assertNotEqual(bytes(part.picture), bytes(whole.picture))
        made = pickle.loads(pickle.dumps(part))
        self.assertEqual(bytes(made.picture), bytes(part.picture))

    def test_take_the_options_of_decode(self):
        for name in ("out", "partial", "max_pases"):
            with self.assertRaises(TypeError):
                zaxbriar.feed(**{name: None})
        with self.assertRaises(zaxbriar.BadArgumentError) as raised:
            zaxbriar.feed(scale=3)
        with self.assertRaises(zaxbriar.BadArgumentError) as wanted:
            zaxbriar.read_info(STREAM, scale=3)
        self.assertEqual(raised.exception.text, wanted.exception.text)
        with zaxbriar.feed(max_samples=1) as fed:
            fed.feed(STREAM)
            with self.assertRaises(zaxbriar.TooLargeError) as raised:
                fed.show()
            self.assertEqual(raised.exception.info, zaxbriar.read_info(STREAM))

    def test_copy_any_buffer(self):
        gaps = memoryview(bytes(byte for each in STREAM for byte in (each, 0)))[::2]
        whole = bytes(zaxbriar.decode(STREAM))
        for data in (bytearray(STREAM), memoryview(STREAM), gaps):
            fed = zaxbriar.feed()
            fed.feed(data)
            fed.feed(b"")
            if isinstance(data, bytearray):
                data.clear()
            self.assertEqual(bytes(fed.show().picture), whole)
        with self.assertRaises(TypeError):
            fed.feed("text")
        with self.assertRaises(TypeError):
            fed.feed(memoryview(b"1234").cast("H"))

    def test_are_closed(self):
        with zaxbriar.feed() as fed:
            fed.feed(STREAM)
        fed.close()
        for call in (fed.info, fed.show, lambda: fed.feed(STREAM)):
            with self.assertRaises(ValueError):
                call()
        self.assertEqual(fed.size, len(STREAM))

    def test_are_freed_when_nobody_has_them(self):
        zaxbriar.feed().feed(PHOTO)
        cycle = [zaxbriar.feed()]
        cycle.append(cycle)
        del cycle
        gc.collect()
        before = resource.getrusage(resource.RUSAGE_SELF).ru_maxrss
        for _ in range(2000):
            fed = zaxbriar.feed(scale=8)
            fed.feed(PHOTO)
        fed.show()
        self.assertLess(resource.getrusage(resource.RUSAGE_SELF).ru_maxrss, before + 20_000)

    def test_are_shared_by_threads(self):
        fed = zaxbriar.feed(scale=8)
        fed.feed(PHOTO[:60000])
        shown = bytes(fed.show().picture)
        with ThreadPoolExecutor(4) as threads:
            found = [threads.submit(lambda: bytes(fed.show().picture)) for _ in range(8)]
        self.assertEqual({each.result() for each in found}, {shown})
        thread = threading.Thread(target=fed.close)
        thread.start()
        thread.join()
        self.assertRaises(ValueError, fed.show)


if __name__ == "__main__":
    unittest.main()
