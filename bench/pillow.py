"""pillow.py DECODINGS SCALE [PLUGIN] < FILE: decodes a JPEG file so many times by Pillow, at full
size, and prints the least and the median processor time of a decoding. PLUGIN is a module that is
imported before, such as zaxbriar_pillow."""

import importlib
import io
import sys
import time

from PIL import Image


def decode_once(jpeg):
    """What decoding a file to the pixels of an image takes, in milliseconds."""
    start = time.process_time()
    Image.open(io.BytesIO(jpeg)).load()
    return 1e3 * (time.process_time() - start)


def main(decodings, scale, *plugins):
    if scale != "1":
        sys.exit("pillow.py: only full size")
    for plugin in plugins:
        importlib.import_module(plugin)
    jpeg = sys.stdin.buffer.read()
    times = sorted(decode_once(jpeg) for _ in range(int(decodings)))
    # As times.h has it: of each hundred the least is left out.
    least, median = times[len(times) // 100], times[len(times) // 2]
    print(f"process time: best {least:.6f} ms, median {median:.6f} ms", file=sys.stderr)


if __name__ == "__main__":
    main(*sys.argv[1:])
