"""Each stream of the conformance suite has the picture, or the refusal, that the suite expects; and
each layout at each scale is what the C library's header makes of the stored picture. SUITE is the
folder that ../../../../tests/suite/make has made."""

import json
import os
import unittest
from collections import Counter
from pathlib import Path

import zaxbriar

SUITE = os.environ.get("SUITE")
# (the suite's first kind has scans that end too soon as well, which the C library tells apart)
REFUSALS = {
    b"refused: invalid": (zaxbriar.MalformedError, zaxbriar.TruncatedError),
    b"refused: unsupported": (zaxbriar.UnsupportedError,),
    b"refused: the file ends": (zaxbriar.TruncatedError,),
}
TRANSFORMS = ("None", "RGB", "YCbCr", "CMYK", "YCCK")


def options_of(settings):
    """The options for the settings of a case, or None where Python has none."""
    options = {"max_passes": 0}
    for name, *values in settings:
        if name == "at":
            options["scale"] = int(values[0].partition("/")[2] or 1)
        elif name == "scale":
            options["min_width"], options["min_height"] = map(int, values)
        elif name == "transform" and values[0] in TRANSFORMS:
            options["transform"] = values[0].lower()
        else:
            return None
    return options


def samples_of(pam):
    """The shape of a PAM file, and its samples, of which two bytes have the lower first."""
    head, _, data = pam.partition(b"ENDHDR\n")
    told = dict(line.split(" ", 1) for line in head.decode().splitlines()[1:])
    width, height, depth = (int(told[name]) for name in ("WIDTH", "HEIGHT", "DEPTH"))
    if int(told["MAXVAL"]) > 255:
        swapped = bytearray(data)
        swapped[::2], swapped[1::2] = data[1::2], data[::2]
        data = bytes(swapped)
    return (height, width) if depth == 1 else (height, width, depth), data


def in_colours(picture, full):
    """Red, green and blue of each pixel of a stored picture, by the formulas of zaxbriar.h."""
    data, most = bytes(picture), 2**picture.info.precision - 1
    if picture.info.item_bytes == 2:
        data = [low | high << 8 for low, high in zip(data[::2], data[1::2])]
    if most != full:
        data = [min(full, (sample * full + most // 2) // most) for sample in data]
    count = picture.info.components
    if count == 1:
        return [(sample,) * 3 for sample in data]
    if count == 3:
        return list(zip(data[::3], data[1::3], data[2::3]))
    black = [full - sample for sample in data[3::4]]
    parts = (data[i::4] for i in range(3))
    return list(
        zip(
            *(
                [((full - ink) * k + full // 2) // full for ink, k in zip(part, black)]
                for part in parts
            )
        )
    )


def words(*numbers):
    return b"".join(number.to_bytes(2, "little") for number in numbers)


def arranged(colours, layout, is_grey):
    """The bytes of a layout."""
    if layout.startswith("grey") and is_grey:
        greys = [red for red, _, _ in colours]
        return bytes(greys) if layout == "grey" else words(*greys)
    arrange = {
        "grey": lambda r, g, b: ((19595 * r + 38470 * g + 7471 * b + 32768) // 65536,),
        "rgb": lambda r, g, b: (r, g, b),
        "rgba": lambda r, g, b: (r, g, b, 255),
        "bgra": lambda r, g, b: (b, g, r, 255),
        "bgr": lambda r, g, b: (b, g, r),
        "xrgb": lambda r, g, b: (255, r, g, b),
        "abgr": lambda r, g, b: (255, b, g, r),
        "rgb565": lambda r, g, b: words(r >> 3 << 11 | g >> 2 << 5 | b >> 3),
        "grey16": lambda r, g, b: words((19595 * r + 38470 * g + 7471 * b + 32768) // 65536),
        "rgb16": words,
    }[layout]
    return b"".join(bytes(arrange(*colour)) for colour in colours)


@unittest.skipUnless(SUITE, "SUITE isn't set")
class Suite(unittest.TestCase):
    def cases(self):
        """Gives each case with its stream and what it expects."""
        folder, settings = Path(SUITE), {}
        for line in (folder / "cases.jsonl").read_text().splitlines():
            case = json.loads(line)
            settings[case["name"]] = case["settings"]
            # (a stricter stream of the same image has the settings of the first)
            case["settings"] = settings.get(case["name"].partition("-strict")[0], [])
            yield case, *((folder / case[key]).read_bytes() for key in ("stream", "expected"))

    def check_layouts(self, stream, stored, scale):
        colours, is_grey = in_colours(stored, 255), stored.info.components == 1
        wide_colours = in_colours(stored, 65535)
        channels = {"grey": (), "rgb": (3,), "bgr": (3,), "rgb565": (), "grey16": (), "rgb16": (3,)}
        for layout in zaxbriar.Layout.__args__[1:]:
            found = zaxbriar.decode(stream, layout=layout, scale=scale, max_passes=0)
            wanted = wide_colours if layout in ("grey16", "rgb16") else colours
            self.assertEqual(bytes(found), arranged(wanted, layout, is_grey), layout)
            self.assertEqual(found.shape, (*stored.shape[:2], *channels.get(layout, (4,))))
            self.assertEqual(found.info.item_bytes, 2 if "16" in layout or "565" in layout else 1)

    def check_refusal(self, decode, expected):
        told = next(kinds for text, kinds in REFUSALS.items() if expected.startswith(text))
        with self.assertRaises(zaxbriar.Error) as raised:
            decode()
        self.assertIn(type(raised.exception), told)
        return type(raised.exception).__name__

    def check_part(self, stream, picture, options):
        """Whether decode_partial finds no fault, and then gives the same picture."""
        part = zaxbriar.decode_partial(stream, **options)
        if part.fault is None:
            self.assertEqual(bytes(part.picture), bytes(picture))
            self.assertEqual(part.whole_rows, picture.height)
        return part.fault is None

    def check(self, case, stream, expected):
        """Checks a case, and gives what was checked."""
        options = options_of(case["settings"])
        if options is None or b"has failed" in expected:
            yield "calls that Python doesn't have"
            return
        is_part = case["file"].startswith("partial") or case["case"].startswith("what is shown")
        call = zaxbriar.decode_partial if is_part else zaxbriar.decode
        if expected.startswith(b"refused"):
            yield self.check_refusal(lambda: call(stream, **options), expected)
            return
        found = call(stream, **options)
        picture = found.picture if is_part else found
        shape, samples = samples_of(expected)
        if options.get("transform") == "none" and picture.shape != shape:
            shape = shape[0], *shape[:0:-1]
        self.assertEqual((picture.shape, bytes(picture)), (shape, samples))
        yield f"{'parts' if is_part else 'pictures'} of {8 * picture.info.item_bytes} bits"
        if not is_part and self.check_part(stream, picture, options):
            yield "pictures without a fault"
        is_lossless = picture.info.process == "lossless"
        if case["settings"] or is_part or picture.info.size > (300 if is_lossless else 3000):
            return
        for scale in (1, 2, 4, 8):
            small = zaxbriar.decode(stream, scale=scale, max_passes=0)
            sides = tuple(-(-side // (1 if is_lossless else scale)) for side in picture.shape[:2])
            self.assertEqual(small.shape[:2], sides)
            self.check_layouts(stream, small, scale)
            yield "pictures at a scale in each layout"

    def test_pictures(self):
        counts = Counter()
        for case, stream, expected in self.cases():
            with self.subTest(case["name"]):
                counts.update(self.check(case, stream, expected))
        print(f"suite: {dict(counts)}")
        self.assertGreater(counts["pictures of 8 bits"], 100)


if __name__ == "__main__":
    unittest.main()
