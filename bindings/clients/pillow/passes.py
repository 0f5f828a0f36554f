"""passes.py: by default the scans of a file may go 100 times over its picture. A file with more is an
OSError, or is loaded without them where LOAD_TRUNCATED_IMAGES is set; and a program may set another
limit, or none."""

import io
import pathlib
import sys

import zaxbriar_pillow
from PIL import Image, ImageFile

sys.path.append(str(pathlib.Path(__file__).parent.parent))
from many_scans import picture


def is_loaded(scans, limit, is_lenient=False):
    """Whether a file of so many scans is loaded."""
    zaxbriar_pillow.max_passes = limit
    ImageFile.LOAD_TRUNCATED_IMAGES = is_lenient
    try:
        with Image.open(io.BytesIO(picture(scans, 32, 16))) as image:
            image.load()
            return image.getextrema() == ((128, 128),) * 3
    except OSError:
        return False


default = zaxbriar_pillow.max_passes
answers = {
    limit: [is_loaded(scans, limit) for scans in (1, 2, 100, 101)] for limit in (default, 1, 101, 0)
}
assert default == 100
assert answers == {
    100: [True, True, True, False],
    1: [True, False, False, False],
    101: [True] * 4,
    0: [True] * 4,
}
assert is_loaded(101, default, True)
print("passes: 16 files within a limit and above it")
