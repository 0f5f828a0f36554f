"""Calls in several threads side by side, and that others run during a call."""

import threading
import time
import unittest
from concurrent.futures import ThreadPoolExecutor

import zaxbriar
from common import file
from many_scans import picture as picture_of_scans


class Threads(unittest.TestCase):
    def test_decode_side_by_side(self):
        names = ("turned.jpg", "described.jpg", "264x256.jpg", "cut.jpg", "SOF9.jpg", "gif.gif")
        streams = [file(name) for name in names]

        def answer_of(stream):
            try:
                part = zaxbriar.decode_partial(stream, layout="rgba")
                return bytes(part.picture), part.whole_rows, str(part.fault)
            except zaxbriar.Error as error:
                return str(error)

        wanted = [answer_of(stream) for stream in streams]
        with ThreadPoolExecutor(8) as threads:
            found = list(threads.map(answer_of, 200 * streams))
        self.assertEqual(found, 200 * wanted)

    def test_others_run_during_a_call(self):
        stream = picture_of_scans(100, 3000, 2000)
        times = []

        def decode():
            times.append(time.monotonic())
            zaxbriar.decode(stream)
            times.append(time.monotonic())

        thread = threading.Thread(target=decode)
        thread.start()
        longest, last = 0, time.monotonic()
        while thread.is_alive():
            time.sleep(0.001)
            longest, last = max(longest, time.monotonic() - last), time.monotonic()
        thread.join()
        taken = times[1] - times[0]
        self.assertLess(longest, taken / 2, f"{taken} s")


if __name__ == "__main__":
    unittest.main()
