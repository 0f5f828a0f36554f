"""Measures what files cost that are made to cost much: processor time, the most memory held, and
the least stack.

hostile.py JPEGRAW ZAXBRIAR FOLDER [PEER..]: the programs of this repository, of which the first has
no limits and the second those that it has by default, a folder for the files, and programs that
read a JPEG file named by their argument, `PEER FILE`. djpeg is one more. Each file is a few
kilobytes to some megabytes; a program has 60 seconds of processor time.
"""

import os
import resource
import subprocess
import sys

from lossless import segment
from markdown import head, line

SECONDS = 60
ADDRESSES = 8 << 30  # bytes
LEAST_STACK, MOST_STACK = 8, 8192  # kB, between which the least is looked for
QUIET = {"stdout": subprocess.DEVNULL, "stderr": subprocess.DEVNULL}


def ones():
    """Quantization table 0, of ones."""
    return segment(0xDB, bytes([0]) + bytes([1] * 64))


def huffman(selector, symbols):
    """A Huffman table of codes of as few bits as there are, for one or two symbols."""
    return segment(0xC4, bytes([selector, len(symbols)] + [0] * 15 + list(symbols)))


def frame(marker, width, height, components=1):
    """A frame of 8 bits, all factors 1."""
    parts = b"".join(bytes([n + 1, 0x11, 0]) for n in range(components))
    return segment(
        marker,
        bytes([8])
        + height.to_bytes(2, "big")
        + width.to_bytes(2, "big")
        + bytes([components])
        + parts,
    )


def scan(ss, se, levels, data, components=1):
    """A scan of the first components by tables 0, and its entropy-coded data."""
    parts = b"".join(bytes([n + 1, 0]) for n in range(components))
    return segment(0xDA, bytes([components]) + parts + bytes([ss, se, levels])) + data


def stream(*pieces):
    return b"\xff\xd8" + b"".join(pieces) + b"\xff\xd9"


BASELINE, PROGRESSIVE = 0xC0, 0xC2
DC, AC = 0x00, 0x10
ZEROS = b"\0"  # after the marker the bits are zeros too
TABLES = ones() + huffman(DC, [0]) + huffman(AC, [0])
ONE_BLOCK = TABLES + frame(BASELINE, 8, 8) + scan(0, 63, 0, b"\x3f")
GREATEST = segment(0xC4, bytes([AC] + [0] * 15 + [255]) + bytes(range(255)))
DENSE = ones() + huffman(DC, [0]) + huffman(AC, [1])
THOUSAND = 1000


def files():
    """The name and the bytes of each file."""
    yield "400,000 scans of 8x8", stream(ONE_BLOCK, scan(0, 63, 0, b"\x3f") * 400_000)
    yield "190,000 Huffman tables of one code", stream(huffman(AC, [0]) * 190_000, ONE_BLOCK)
    yield "15,000 Huffman tables of 255 codes", stream(GREATEST * 15_000, ONE_BLOCK)
    yield "800 Exif segments of 64 kB", stream(
        segment(0xE1, b"Exif\0\0" + bytes(65527)) * 800, ONE_BLOCK
    )
    three = TABLES + frame(BASELINE, 2000, 2000, 3)
    yield "1,000 whole scans of 2000x2000, three components", stream(
        three, scan(0, 63, 0, ZEROS, 3) * THOUSAND
    )
    blocks = DENSE + frame(PROGRESSIVE, 2000, 2000)
    dense = blocks + scan(1, 63, 1, ZEROS) + huffman(AC, [0])
    yield "1,000 refinements of dense blocks, 2000x2000", stream(
        dense, scan(1, 63, 0x10, ZEROS) * THOUSAND
    )
    yield "1,000 refinements of DC, 2000x2000", stream(
        blocks, scan(0, 0, 1, ZEROS), scan(0, 0, 0x10, ZEROS) * THOUSAND
    )
    empty = TABLES + frame(PROGRESSIVE, 2000, 2000) + scan(1, 63, 0, ZEROS) * THOUSAND
    yield "1,000 scans of zero bands, 2000x2000", stream(empty)
    yield "63 tokens a block from the zeros after a marker, 4000x4000", stream(
        DENSE, frame(BASELINE, 4000, 4000), scan(0, 63, 0, ZEROS)
    )
    cut = TABLES + frame(PROGRESSIVE, 12000, 12000, 3) + scan(0, 0, 0, b"", 3)
    yield "a progressive header of 12000x12000, cut after its scan header", stream(cut)[:-2]
    yield "65535x65535, grey", stream(TABLES, frame(BASELINE, 65535, 65535), scan(0, 63, 0, ZEROS))


def limits():
    resource.setrlimit(resource.RLIMIT_CPU, (SECONDS, SECONDS))
    resource.setrlimit(resource.RLIMIT_AS, (ADDRESSES, ADDRESSES))


def cost(words, path):
    """Seconds of processor time, the most megabytes held, and the status, of a program on a file as
    standard input. A small program starts it, since the memory of what starts it counts too."""
    words = ["/usr/bin/time", "-q", "-o", f"{path}.cost", "-f", "%U %S %M", *words]
    with open(path, "rb") as stdin:
        status = subprocess.run(words, stdin=stdin, preexec_fn=limits, **QUIET).returncode
    with open(f"{path}.cost", encoding="ascii") as figures:
        user, system, kilobytes = figures.read().split()
    return float(user) + float(system), int(kilobytes) / 1024, status


def decodes_within(words, path, kilobytes):
    """Whether a program decodes a file with a stack of this size."""
    size = kilobytes * 1024

    def limit():
        resource.setrlimit(resource.RLIMIT_STACK, (size, size))

    with open(path, "rb") as stdin:
        try:
            return subprocess.run(words, stdin=stdin, preexec_fn=limit, **QUIET).returncode == 0
        except (OSError, subprocess.SubprocessError):
            return False


def least_stack(words, path):
    """The least stack in kilobytes with which a program decodes a file."""
    low, high = LEAST_STACK, MOST_STACK
    while high - low > 4:
        middle = (low + high) // 2
        low, high = (low, middle) if decodes_within(words, path, middle) else (middle, high)
    return high


def cells(program_cost):
    """The two cells of a program: its seconds, and the megabytes that it holds."""
    seconds, megabytes, status = program_cost
    mark = "" if status == 0 else " refused" if status < 128 else " killed"
    return [f"{seconds:.2f}{mark}", f"{megabytes:.0f}"]


def print_costs(programs, path):
    """Prints a line for each file: what each program takes for it."""
    titles = [f"{name} ({unit})" for name in programs for unit in ("s", "MB")]
    print(head(["", "bytes", *titles]))
    for name, data in files():
        with open(path, "wb") as file:
            file.write(data)
        figures = [cell for words in programs.values() for cell in cells(cost(words, path))]
        print(line([name, str(len(data)), *figures]), flush=True)


def print_stacks(programs, path):
    """Prints the least stack with which each program decodes a picture of one block."""
    with open(path, "wb") as file:
        file.write(stream(ONE_BLOCK))
    stacks = (f"{name} {least_stack(words, path)}" for name, words in programs.items())
    print("\nLeast stack (kB): " + ", ".join(stacks))


def main(jpegraw, zaxbriar, folder, *peers):
    path = os.path.join(folder, "file.jpg")
    programs = {"ours": [jpegraw], "ours by default": [zaxbriar, "raw"]}
    programs |= {os.path.basename(peer): [peer, path] for peer in [*peers, "djpeg"]}
    print_costs(programs, path)
    print_stacks(programs, path)


main(*sys.argv[1:])
