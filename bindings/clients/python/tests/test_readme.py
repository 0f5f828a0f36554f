"""The examples of README.md run one after the other, and give what they say."""

import contextlib
import io
import os
import re
import tempfile
import unittest
from pathlib import Path

import zaxbriar
from common import TOP, file, numpy

PAGE = Path(__file__).resolve().parent.parent / "README.md"


class Examples(unittest.TestCase):
    def setUp(self):
        folder = tempfile.TemporaryDirectory()
        self.addCleanup(folder.cleanup)
        self.addCleanup(os.chdir, os.getcwd())
        os.chdir(folder.name)
        self.photo = (TOP / "examples/rocket.jpg").read_bytes()
        Path("photo.jpg").write_bytes(self.photo)

    def test_run(self):
        examples = re.findall(r"^```python\n(.*?)^```$", PAGE.read_text(), re.S | re.M)
        self.assertEqual(len(examples), 12)
        found = {"cut_data": self.photo[: len(self.photo) // 2]}
        said = io.StringIO()
        with contextlib.redirect_stdout(said):
            for example in examples:
                if numpy or "numpy" not in example:
                    exec(example, found)
        rows, error = said.getvalue().splitlines()
        self.assertRegex(rows, r"^[1-9]\d* rows are complete: the file ends too soon$")
        self.assertEqual(error, "the file ends too soon")
        self.assertEqual(found["picture"].shape, (427, 640, 3))
        self.assertEqual(found["samples"].shape, (427, 640, 3))
        stored = zaxbriar.decode(self.photo)
        self.assertEqual(Path("samples").read_bytes(), bytes(stored))
        self.assertEqual(Path("arrived").read_bytes(), bytes(stored))
        self.assertEqual((found["fed"].size, found["shown"]), (len(self.photo), 65536))
        self.assertEqual(found["tile"].shape, (256, 256, 3))
        self.assertEqual(found["small"].shape, (107, 160, 3))
        if numpy:
            self.assertEqual(found["pixels"].shape, (427, 640, 3))
            self.assertEqual(found["canvas"][20, 30].tolist(), [*found["picture"][0][0]])


if __name__ == "__main__":
    unittest.main()
