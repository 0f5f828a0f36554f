#!/usr/bin/env python3
"""Makes a package of the original's own test file, tests/lib.rs.

    original_tests.py ORIGINAL FOLDER CRATE OUT

ORIGINAL is Debian's package of the original, where the tests are commented out for want of their
images; FOLDER is Firefox's image/test/reftest/jpeg; CRATE is what OUT is to test. Three tests take
images of FOLDER. Those of the other six aren't at hand: in their place are images of FOLDER with
the segments that the tests are about. The modules that walk over folders of images are left out.
"""
import random
import re
import shutil
import sys
from pathlib import Path

MANIFEST = """[package]
name = "original-tests"
version = "0.1.0"
edition = "2018"
[dev-dependencies]
jpeg-decoder = {{ path = "{}", default-features = false }}
[workspace]
"""


def segment(code, data):
    return bytes([0xFF, code]) + (len(data) + 2).to_bytes(2, "big") + data


def with_parts(jpeg, parts):
    """Returns an image with parts of a profile: the number, the count and the data of each."""
    chunks = (segment(0xE2, b"ICC_PROFILE\0" + bytes(head) + data) for *head, data in parts)
    return jpeg[:2] + b"".join(chunks) + jpeg[2:]


def make_images(folder, out):
    """Writes the images that the tests name."""
    mozilla = out / "tests/reftest/images/mozilla"
    mozilla.mkdir(parents=True)
    for name in ("jpg-progressive.jpg", "jpg-srgb-icc.jpg"):
        shutil.copy(folder / name, mozilla)
    plain = (folder / "jpg-size-1x1.jpg").read_bytes()
    shuffled = random.Random(1).sample(range(1, 255), 254)
    profiles = {
        "chunk_order": [(number, 254, bytes([number])) for number in shuffled],
        "chunk_seq_no_0": [(number, 3, b"part") for number in (0, 1, 2)],
        "chunk_double_seq_no": [(number, 3, b"part") for number in (1, 2, 2)],
        "chunk_count_mismatch": [(number, 4, b"part") for number in (1, 2, 3)],
        "missing_chunk": [(number, 3, b"part") for number in (1, 3)],
    }
    (out / "tests/icc").mkdir()
    for name, parts in profiles.items():
        (out / f"tests/icc/icc_{name}.jpeg").write_bytes(with_parts(plain, parts))
    exif = segment(0xE1, b"Exif\0\0II*\0\x08\0\0\0\0\0\0\0\0\0")
    cmyk = (folder / "jpg-cmyk-2.jpg").read_bytes()
    (out / "tests/reftest/images/ycck.jpg").write_bytes(cmyk[:2] + exif + cmyk[2:])


def test_file(original):
    """Returns the test file as it was before Debian's changes, without what walks over folders."""
    text = (original / "tests/lib.rs").read_text()
    text = re.sub(r"(?m)^ *(/\*|//mod .*|#\[ignore.*|#\[wasm_bindgen_test.*)$|\*/", "", text)
    return re.sub(r"extern crate (png|walkdir);", "", text.replace("/*#[test]", "#[test]"))


def main():
    original, folder, crate, out = map(Path, sys.argv[1:])
    shutil.rmtree(out, ignore_errors=True)
    make_images(folder, out)
    (out / "tests/lib.rs").write_text(test_file(original))
    (out / "src").mkdir()
    (out / "src/lib.rs").touch()
    (out / "Cargo.toml").write_text(MANIFEST.format(crate.resolve()))


main()
