"""Rows while their bytes arrive: beside those of the bytes in one piece, of files that are cut and
damaged; what is freed; and threads."""

import io
import random
import resource
import unittest
from concurrent.futures import ThreadPoolExecutor

import zaxbriar
from common import TOP, file
from many_scans import picture as picture_of_scans

STREAM = file("turned.jpg")
PHOTO = (TOP / "examples/rocket.jpg").read_bytes()


def pieces_of(data, size, seed=1):
    """Pieces of a size, or of any up to 3000 bytes where that is 0."""
    numbers, at = random.Random(seed), 0
    while at < len(data):
        count = size or numbers.randrange(3000)
        yield data[at : at + count]
        at += count


def outcome_of(rows_of, given, options):
    """The rows, what the exception says, and the description of the picture."""
    found, info = [], None
    try:
        with rows_of(given, **options) as rows:
            for row in rows:
                found.append(row)
                info = rows.info
    except zaxbriar.Error as error:
        argument = getattr(error, "feature_argument", 0)
        told = (type(error), error.text, error.lines, getattr(error, "feature", None), argument)
        return found, info, told
    return found, info, None


class ArrivingRows(unittest.TestCase):
    def compare(self, data, sizes=(7, 4096, 0), **options):
        wanted = outcome_of(zaxbriar.rows, data, options)
        for size in sizes:
            given = outcome_of(zaxbriar.arriving_rows, pieces_of(data, size), options)
            self.assertEqual(given, wanted)

    def test_are_those_of_the_bytes(self):
        names = ("turned.jpg", "described.jpg", "264x256.jpg", "cut.jpg", "SOF9.jpg", "gif.gif")
        for data in map(file, names):
            self.compare(data, sizes=(1, 7, 4096, 0))
            for transform in ("none", "rgb", "ycbcr", "cmyk", "ycck"):
                self.compare(data, transform=transform)
            for limit in ("max_samples", "max_bytes", "max_passes"):
                self.compare(data, **{limit: 1})
            for part in range(16):
                self.compare(data[: len(data) * part // 16])
                damaged = bytearray(data)
                damaged[len(data) * part // 16] ^= 0x55
                self.compare(bytes(damaged))
        self.compare(PHOTO, sizes=(7, 512, 65536, 0))
        self.compare(picture_of_scans(101, 16, 16))

    def test_come_early(self):
        taken = []
        pieces = (taken.append(piece) or piece for piece in pieces_of(PHOTO, 512))
        rows, early = zaxbriar.arriving_rows(pieces), 0
        self.assertIsNone(rows.info)
        for _ in rows:
            if len(taken) * 1024 <= len(PHOTO):
                early = rows.lines
        self.assertGreater(early, rows.info.height // 4)
        self.assertEqual((rows.info.width, rows.lines), (640, rows.info.height))

    def test_are_freed(self):
        def leave_by_with(rows):
            with rows:
                next(rows)

        for leave in (next, leave_by_with, list, lambda rows: [rows.close(), rows.close()]):
            leave(zaxbriar.arriving_rows(pieces_of(PHOTO, 4096)))
            before = resource.getrusage(resource.RUSAGE_SELF).ru_maxrss
            for _ in range(100):
                leave(zaxbriar.arriving_rows(pieces_of(PHOTO, 4096)))
            after = resource.getrusage(resource.RUSAGE_SELF).ru_maxrss
            self.assertLess(after, before + 20_000)
        rows = zaxbriar.arriving_rows([PHOTO])
        next(rows)
        rows.close()
        self.assertEqual((list(rows), rows.lines), ([], 1))

    def test_take_any_pieces(self):
        wanted = list(zaxbriar.rows(STREAM))
        self.assertEqual(list(zaxbriar.arriving_rows(io.BytesIO(STREAM))), wanted)
        views = [bytearray(STREAM[:9]), memoryview(STREAM)[9:20], b"", STREAM[20:]]
        self.assertEqual(list(zaxbriar.arriving_rows(views)), wanted)

        def broken():
            yield STREAM[:200]
            raise OSError("the line is cut")

        with self.assertRaisesRegex(OSError, "the line is cut"):
            list(zaxbriar.arriving_rows(broken()))
        for pieces in ("text", STREAM, bytearray(STREAM), 5, None, ["text"]):
            with self.assertRaises(TypeError):
                list(zaxbriar.arriving_rows(pieces))
        names = ("layout", "stride", "bottom_up", "upright", "luma", "crop", "within")
        for name in (*names, "scale", "min_width", "min_height"):
            with self.assertRaises(TypeError):
                zaxbriar.arriving_rows([STREAM], **{name: 1})

    def test_are_shared_by_threads(self):
        rows = zaxbriar.arriving_rows(pieces_of(PHOTO, 512))
        with ThreadPoolExecutor(4) as threads:
            parts = [threads.submit(list, rows) for _ in range(4)]
        found = [row for part in parts for row in part.result()]
        self.assertEqual(sorted(found), sorted(zaxbriar.rows(PHOTO)))


if __name__ == "__main__":
    unittest.main()
