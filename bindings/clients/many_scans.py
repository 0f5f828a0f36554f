"""many_scans.py SCANS WIDTH HEIGHT: writes a picture of mid-grey whose scans go that many times over
all blocks of its three components, by 15 bytes each."""

import sys


def segment(marker, payload):
    return bytes([0xFF, marker]) + (len(payload) + 2).to_bytes(2, "big") + payload


def huffman(selector):
    """A table of one code, of one bit, for 0."""
    return segment(0xC4, bytes([selector, 1] + 16 * [0]))


def picture(scans, width, height):
    size = height.to_bytes(2, "big") + width.to_bytes(2, "big")
    frame = segment(0xC0, b"\x08" + size + bytes([3, 1, 17, 0, 2, 17, 0, 3, 17, 0]))
    tables = segment(0xDB, bytes([0] + 64 * [1])) + huffman(0) + huffman(0x10)
    scan = segment(0xDA, bytes([3, 1, 0, 2, 0, 3, 0, 0, 63, 0])) + b"\0"
    return b"\xff\xd8" + tables + frame + scans * scan + b"\xff\xd9"


if __name__ == "__main__":
    sys.stdout.buffer.write(picture(*map(int, sys.argv[1:])))
