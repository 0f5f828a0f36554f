"""Rows one by one: those of the model before a fault, beside decode, what is freed and held, and
threads."""

import contextlib
import gc
import io
import pickle
import resource
import threading
import unittest
from concurrent.futures import ThreadPoolExecutor

import zaxbriar
from common import TOP, bytes_of, file
from many_scans import picture as picture_of_scans

STREAM = file("turned.jpg")
PHOTO = (TOP / "examples/rocket.jpg").read_bytes()
DECODER = TOP / "tests/decoder"
KINDS = {
    "refused: invalid JPEG format": zaxbriar.MalformedError,
    "refused: unsupported JPEG feature": zaxbriar.UnsupportedError,
    "refused: the file ends too soon": zaxbriar.TruncatedError,
}
FORMATS = {"grey8": "L8", "grey16": "L16", "rgb": "RGB24", "cmyk": "CMYK32"}


def cases():
    """Gives each stream of the decoder's suite of which rows alone are asked, with the answer."""
    answers = iter((DECODER / "answers").read_text().splitlines())
    for name in (DECODER / "args").read_text().split():
        text = "\n" + (DECODER / "data" / name).read_text()
        for case in text.split("\ncase ")[1:]:
            title, *lines = case.splitlines()
            lines = [line.split() for line in lines if line and line[0] != "#"]
            answer = next(answers)
            assert answer.startswith(f"{title}: ")
            if [line for line in lines if line[0] != "stream"] == [["rows"]]:
                words = [word for line in lines[:-1] for word in line[1:]]
                yield title, bytes_of(words), answer[len(title) + 2 :]


def taken(data, **options):
    """The rows of a stream, and the exception after them or None."""
    found = []
    try:
        with zaxbriar.rows(data, **options) as rows:
            found.extend(rows)
    except zaxbriar.Error as error:
        return found, error
    return found, None


def told_by(error):
    """What an exception says of its fault."""
    return error.text, getattr(error, "feature", None), getattr(error, "feature_argument", 0)


class Rows(unittest.TestCase):
    def check_answer(self, stream, answer):
        found, error = taken(stream, max_passes=0)
        text, _, told = answer.partition(", lines ")
        if text.startswith("refused"):
            kind = next(kind for begin, kind in KINDS.items() if text.startswith(begin))
            count, *words = told.split()
            self.assertIs(type(error), kind)
            self.assertTrue(error.text)
            self.assertIn(error.lines, (None, int(count)))
            self.assertEqual(len(found), int(count))
        else:
            self.assertIsNone(error)
            width, height, form, *words = answer.split()
            info = zaxbriar.read_info(stream)
            self.assertEqual((info.width, info.height), (int(width), int(height)))
            self.assertEqual((len(found), FORMATS[info.format]), (info.height, form))
        self.assertEqual(b"".join(found), bytes_of(words))
        return type(error).__name__ if error else "pictures"

    def test_are_those_of_the_model(self):
        counts = {}
        for title, stream, answer in cases():
            with self.subTest(title):
                kind = self.check_answer(stream, answer)
                counts[kind] = counts.get(kind, 0) + 1
        print(f"rows: {counts}")
        self.assertGreater(counts["pictures"], 50)

    def compare(self, data, **options):
        try:
            whole = zaxbriar.decode(data, **options)
        except zaxbriar.Error as error:
            refusal = error
        else:
            refusal = None
        found, error = taken(data, **options)
        self.assertIs(type(error), type(refusal))
        if error is None:
            self.assertEqual(b"".join(found), bytes(whole))
            self.assertEqual({len(row) for row in found}, {whole.info.row_bytes})
            return
        self.assertEqual(told_by(error), told_by(refusal))
        if found:
            self.assertEqual(error.lines, len(found))
            self.assertEqual(str(error), f"{error.text}, after {len(found)} rows")

    def test_are_those_of_decode(self):
        names = ("turned.jpg", "described.jpg", "264x256.jpg", "cut.jpg", "SOF9.jpg", "gif.gif")
        for data in map(file, names):
            for scale in (1, 2, 4, 8):
                self.compare(data, scale=scale)
            for transform in ("none", "rgb", "ycbcr", "cmyk", "ycck"):
                self.compare(data, transform=transform)
            self.compare(data, min_width=20, min_height=20)
            for part in range(16):
                self.compare(data[: len(data) * part // 16])
        self.compare(picture_of_scans(101, 16, 16))

    def test_say_what_the_picture_is(self):
        with zaxbriar.rows(STREAM, scale=2) as rows:
            self.assertEqual(rows.info, zaxbriar.read_info(STREAM, scale=2))
            self.assertEqual((rows.lines, len(next(rows)), rows.lines), (0, rows.info.row_bytes, 1))
        self.assertEqual((list(rows), rows.lines), ([], 1))

    def test_end_after_an_exception(self):
        rows = zaxbriar.rows(PHOTO[: len(PHOTO) // 2])
        with self.assertRaises(zaxbriar.TruncatedError) as raised:
            for _ in rows:
                pass
        self.assertEqual((raised.exception.lines, rows.lines), (264, 264))
        self.assertEqual(list(rows), [])
        made = pickle.loads(pickle.dumps(raised.exception))
        self.assertEqual(str(made), f"{made.text}, after 264 rows")
        with self.assertRaises(zaxbriar.TruncatedError) as whole:
            zaxbriar.decode(PHOTO[: len(PHOTO) // 2])
        self.assertEqual(told_by(made), told_by(whole.exception))

    def test_take_the_options_that_arrange_nothing(self):
        names = ("layout", "stride", "bottom_up", "upright", "luma", "crop", "within", "out")
        for name in names:
            with self.assertRaises(TypeError):
                zaxbriar.rows(STREAM, **{name: None})
        with self.assertRaises(zaxbriar.TooLargeError) as raised:
            zaxbriar.rows(STREAM, max_samples=1)
        self.assertEqual(raised.exception.info, zaxbriar.read_info(STREAM))
        with self.assertRaises(zaxbriar.BadArgumentError):
            zaxbriar.rows(STREAM, scale=3)
        with self.assertRaises(TypeError):
            zaxbriar.rows("text")

    def test_hold_the_stream_until_they_end(self):
        def leave_by_with(rows):
            with rows:
                next(rows)

        def leave_by_exception(rows):
            with contextlib.suppress(zaxbriar.Error):
                list(rows)

        for leave, part in (
            (lambda rows: rows.close(), 1),
            (lambda rows: [rows.close(), rows.close()], 1),
            (list, 1),
            (leave_by_with, 1),
            (leave_by_exception, 0.5),
        ):
            data = bytearray(PHOTO[: int(len(PHOTO) * part)])
            rows = zaxbriar.rows(data)
            next(rows)
            with self.assertRaises(BufferError):
                data.clear()
            leave(rows)
            data.clear()
        data = bytearray(b"GIF89a")
        with self.assertRaises(zaxbriar.MalformedError):
            zaxbriar.rows(data)
        data.clear()

    def test_are_freed_when_nobody_has_them(self):
        data = bytearray(PHOTO)
        next(zaxbriar.rows(data))
        cycle = [zaxbriar.rows(data)]
        cycle.append(cycle)
        del cycle
        gc.collect()
        data.clear()
        before = resource.getrusage(resource.RUSAGE_SELF).ru_maxrss
        for _ in range(2000):
            next(zaxbriar.rows(PHOTO))
        self.assertLess(resource.getrusage(resource.RUSAGE_SELF).ru_maxrss, before + 20_000)

    def test_read_from_any_buffer(self):
        whole = bytes(zaxbriar.decode(STREAM))
        gaps = memoryview(bytes(byte for each in STREAM for byte in (each, 0)))[::2]
        for data in (bytearray(STREAM), memoryview(STREAM), gaps):
            self.assertEqual(b"".join(zaxbriar.rows(data)), whole)
        file = io.BytesIO()
        file.writelines(zaxbriar.rows(STREAM))
        self.assertEqual(file.getvalue(), whole)

    def test_are_shared_by_threads(self):
        whole = zaxbriar.decode(PHOTO)
        rows = zaxbriar.rows(PHOTO)
        with ThreadPoolExecutor(4) as threads:
            parts = [threads.submit(list, rows) for _ in range(4)]
        found = [row for part in parts for row in part.result()]
        wanted = bytes(whole)
        row_bytes = whole.info.row_bytes
        starts = range(0, len(wanted), row_bytes)
        self.assertEqual(sorted(found), sorted(wanted[at : at + row_bytes] for at in starts))

    def test_end_in_another_thread(self):
        rows = zaxbriar.rows(PHOTO)
        next(rows)
        thread = threading.Thread(target=rows.close)
        thread.start()
        thread.join()
        self.assertEqual(list(rows), [])


if __name__ == "__main__":
    unittest.main()
