"""Compares jpegraw with another program of the same output, byte for byte, on files of many kinds.

against.py JPEGRAW ZAXBRIAR PEER: PEER reads a JPEG stream and writes what jpegraw writes, for
example a program of the original crate. The pixels of `ZAXBRIAR pnm` at each scale are compared
with those of `PEER --scale WIDTHxHEIGHT`, and those of `ZAXBRIAR frames` with those of PEER for
each frame. The status is 1 where one of them refuses a file that the other decodes, or
where their outputs differ.
"""

import subprocess
import sys
import tempfile
from pathlib import Path

from damaged import damaged
from streams import CODINGS, FEW_SIZES, SAMPLINGS, drawn, groups, mjpeg_frames, output_of


def answer_of(words, stream):
    """Whether a program refuses a stream, and what it writes for it."""
    done = subprocess.run(words, input=stream, capture_output=True)
    return done.returncode != 0, done.stdout


def scaled_answers(zaxbriar, peer, scale, size, stream):
    """The pixels of both programs for a picture at a scale; a header of the netpbm formats has
    three lines."""
    ours, picture = answer_of([zaxbriar, "pnm", "--scale", scale], stream)
    theirs, raw = answer_of([peer, "--scale", "%dx%d" % size], stream)
    return (ours, picture.split(b"\n", 3)[-1]), (theirs, raw.split(b"\n", 1)[-1])


def size_at(scale, width, height):
    """The size of a picture at 1, 2, 4 or 8 eighths."""
    return -(-width * scale // 8), -(-height * scale // 8)


def is_less_enough(scale, width, height):
    """Whether a lesser scale has the size, in one direction: PEER is asked for a size, and takes the
    least scale that is as wide or as high."""
    least = size_at(scale // 2, width, height) if scale > 1 else (0, 0)
    wanted = size_at(scale, width, height)
    return least[0] >= wanted[0] or least[1] >= wanted[1]


def scaled(zaxbriar, peer):
    """The answers of both programs at each scale."""
    for name, picture in drawn(FEW_SIZES):
        width, height = map(int, picture.split(b"\n", 2)[1].split())
        for sampling in SAMPLINGS:
            for coding in ("plain", "progressive"):
                stream = output_of(["cjpeg", "-sample", sampling, *CODINGS[coding]], picture)
                for scale, name_of_scale in ((1, "1/8"), (2, "1/4"), (4, "1/2"), (8, "1")):
                    size = size_at(scale, width, height)
                    if is_less_enough(scale, width, height):
                        continue
                    yield f"{name}; {sampling}; {coding}; {scale}/8", *scaled_answers(
                        zaxbriar, peer, name_of_scale, size, stream
                    )


def as_one_stream(zaxbriar, peer):
    """The answers for all MJPEG frames, one after the other and one by one."""
    frames = [stream for _, stream in mjpeg_frames()]
    theirs = [answer_of([peer], frame)[1].split(b"\n", 1)[1] for frame in frames]
    with tempfile.TemporaryDirectory() as folder:
        refused, _ = answer_of([zaxbriar, "frames", "-o", f"{folder}/%04d.ppm"], b"".join(frames))
        ours = [path.read_bytes().split(b"\n", 3)[3] for path in sorted(Path(folder).iterdir())]
    yield "all frames", (refused, ours), (False, theirs)


def counted(title, answers):
    """Counts the files and prints those whose answers differ, and gives how many these are."""
    total = refused = differing = 0
    for name, ours, theirs in answers:
        total += 1
        refused += ours[0]
        if ours != theirs:
            differing += 1
            print(f"{title}: {name}: the outputs differ")
    print(f"{title}: {total} files, {refused} refused, {differing} differ", flush=True)
    return differing


def main(jpegraw, zaxbriar, peer):
    differing = 0
    for title, files in [*groups(), ("damaged files", damaged())]:
        answers = (
            (name, answer_of([jpegraw], stream), answer_of([peer], stream))
            for name, stream in files
        )
        differing += counted(title, answers)
    differing += counted("scales", scaled(zaxbriar, peer))
    differing += counted("MJPEG frames as one stream", as_one_stream(zaxbriar, peer))
    return 1 if differing else 0


if __name__ == "__main__":
    sys.exit(main(*sys.argv[1:]))
