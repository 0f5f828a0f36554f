"""memory.py: Pillow decodes by the plugin without a warning and right into the image's memory,
whatever the picture's size, and into memory of another form as well; what it decodes line by line
is as it is at once, of a cut file too; and it reads a stream whose tables stand in a stream of
their own.

Run it with `-W error`. Prints how much memory a picture of 24 megapixels, in colour and in grey,
takes in a process of its own, with the plugin and without.
"""

import io
import os
import subprocess
import sys
from concurrent.futures import ThreadPoolExecutor
from itertools import product

import PIL
import zaxbriar
import zaxbriar_pillow
from PIL import Image, ImageFile

SIZES = ((1, 1), (7, 5), (640, 480), (2000, 1500), (2900, 2000))
LOADER = """
import io, sys
{}
from PIL import Image
Image.open(io.BytesIO(sys.stdin.buffer.read())).load()
with open("/proc/self/status") as status:
    print(next(int(line.split()[1]) // 1024 for line in status if line.startswith("VmHWM")))
"""


def jpeg_of(mode, size, **options):
    """A file of a picture whose lines and columns differ."""
    across = Image.linear_gradient("L").rotate(90).resize(size)
    down = Image.linear_gradient("L").resize(size)
    picture = {
        "L": lambda: across,
        "RGB": lambda: Image.merge("RGB", (across, down, down)),
        "CMYK": lambda: Image.merge("CMYK", (across, down, down, across)),
    }[mode]()
    file = io.BytesIO()
    picture.save(file, "JPEG", quality=90, **options)
    return file.getvalue()


def in_two(stream):
    """The tables of a file, and the image without them, each as a stream of its own."""
    tables, image, at = b"\xff\xd8", b"\xff\xd8", 2
    while stream[at + 1] != 0xDA:
        end = at + 2 + int.from_bytes(stream[at + 2 : at + 4], "big")
        if stream[at + 1] in (0xC4, 0xDB):
            tables += stream[at:end]
        else:
            image += stream[at:end]
        at = end
    return tables + b"\xff\xd9", image + stream[at:]


def loaded(stream):
    """The picture of a stream, and whether it was decoded right into the image's memory."""
    before = zaxbriar_pillow.decoded_in_place
    with Image.open(io.BytesIO(stream)) as image:
        image.load()
        return image.copy(), zaxbriar_pillow.decoded_in_place - before == 1


def in_place():
    """The faults of pictures of each mode and of several sizes, in memory of every form: the
    picture decoded in place is the one decoded by a copy."""
    for mode in ("L", "RGB", "CMYK"):
        for size in SIZES:
            stream = jpeg_of(mode, size)
            picture, is_in_place = loaded(stream)
            if not is_in_place:
                yield f"{mode} {size}: not in place"
            Image.core.set_alignment(64)  # lines with gaps between them
            aligned, _ = loaded(stream)
            Image.core.set_alignment(1)
            kept, zaxbriar_pillow._memory_of = zaxbriar_pillow._memory_of, lambda *_: None
            copied, is_in_place = loaded(stream)
            zaxbriar_pillow._memory_of = kept
            if is_in_place or picture.tobytes() != copied.tobytes():
                yield f"{mode} {size}: another picture than by a copy"
            if aligned.tobytes() != copied.tobytes():
                yield f"{mode} {size}: another picture in lines with gaps"


def drafted(stream, scale, is_lenient):
    """The mode, the size and the pixels that are loaded of a stream at a scale, or the error."""
    kept, ImageFile.LOAD_TRUNCATED_IMAGES = ImageFile.LOAD_TRUNCATED_IMAGES, is_lenient
    try:
        with Image.open(io.BytesIO(stream)) as image:
            image.draft(image.mode, (image.width // scale, image.height // scale))
            image.load()
            return image.mode, image.size, image.tobytes()
    except OSError as error:
        return str(error)
    finally:
        ImageFile.LOAD_TRUNCATED_IMAGES = kept


def by_lines():
    """The faults of pictures that are decoded line by line."""
    taken, kept = [], zaxbriar_pillow._by_lines

    def take(*arguments):
        taken.append(kept(*arguments))
        return taken[-1]

    for mode, scale in product(("L", "CMYK"), (1, 2, 8)):
        whole = jpeg_of(mode, (642, 483))
        for stream, is_lenient in product((whole, whole[: len(whole) // 2]), (False, True)):
            results = []
            for call in (take, lambda *_: False):
                zaxbriar_pillow._by_lines = call
                results.append(drafted(stream, scale, is_lenient))
            zaxbriar_pillow._by_lines = kept
            if taken != [stream is whole] or results[0] != results[1]:
                yield f"{mode} at 1/{scale}: not line by line, or another result than at once"
            taken.clear()
    zaxbriar_pillow._by_lines = take
    with ThreadPoolExecutor(1) as pool:
        pool.submit(drafted, whole, 1, False).result()
    zaxbriar_pillow._by_lines = kept
    if taken:
        yield "line by line beside another thread"


def is_memory_error(stream):
    """Whether memory that is refused is a MemoryError, also where files may be damaged."""

    def refuse(*_, **__):
        raise zaxbriar.NoMemoryError("")

    kept = zaxbriar.calls.decode_at, ImageFile.LOAD_TRUNCATED_IMAGES
    zaxbriar.calls.decode_at = refuse
    ImageFile.LOAD_TRUNCATED_IMAGES = True
    try:
        loaded(stream)
    except MemoryError:
        return True
    finally:
        zaxbriar.calls.decode_at, ImageFile.LOAD_TRUNCATED_IMAGES = kept
    return False


def memory_with(plugin, stream):
    """How many MB a process of its own takes to load a picture."""
    python = os.environ.get("PYTHON", sys.executable)
    run = [python, "-W", "error", "-c", LOADER.format(plugin)]
    return int(subprocess.run(run, input=stream, stdout=subprocess.PIPE, check=True).stdout)


def main():
    blocks = Image.core.get_block_size()
    faults = [*in_place(), *by_lines()]
    if Image.core.get_block_size() != blocks:
        faults.append("another block size is left behind")
    stream = jpeg_of("RGB", (99, 66))
    if loaded(b"".join(in_two(stream)))[0].tobytes() != loaded(stream)[0].tobytes():
        faults.append("tables in a stream of their own: another picture")
    if not is_memory_error(stream):
        faults.append("refused memory isn't a MemoryError")
    resident = {}
    for mode in ("RGB", "L"):
        stream = jpeg_of(mode, (6000, 4000))
        resident[mode] = [memory_with(plugin, stream) for plugin in ("import zaxbriar_pillow", "")]
        own = zaxbriar.read_info(stream).decoding_bytes >> 20 if mode == "RGB" else 0
        if resident[mode][0] > resident[mode][1] + own + 16:
            faults.append(f"{mode}: 24 megapixels take more memory than Pillow's own and {own} MB")
    print(
        f"memory: Pillow {PIL.__version__}: {3 * len(SIZES)} pictures of up to 5.8 megapixels, by a"
        " copy and in place; 24 megapixels, with the plugin and without, take "
        + ", ".join(f"in {mode} {ours} and {own} MB" for mode, (ours, own) in resident.items())
        + f"; {len(faults)} faults"
    )
    print(*faults, sep="\n", end="\n" if faults else "")
    sys.exit(1 if faults else 0)


main()
