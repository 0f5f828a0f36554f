"""Refuses each allocation of the programs in turn.

refused.py CRATES [FILE]: CRATES is the folder of the crates, in which the programs were built; FILE
is a photograph, or a picture of 203x151 with Exif data, XMP data and an ICC profile that cjpeg and
exiftool make where none is named. Each program runs with its first allocation refused, then with
its second, and so on until none is. Each run has to end with status 1 and a line that says `out of
memory`, or with the output of a run where nothing is refused; what it wrote before is the beginning
of that output. A library of C takes the place of the C library's `malloc` and `realloc` in the
program alone.
"""

import os
import subprocess
import sys
import tempfile
from pathlib import Path

from pictures import ppm
from streams import output_of

SHIM = r"""
#define _GNU_SOURCE
#include <dlfcn.h>
#include <stdlib.h>
#include <unistd.h>

/* How many allocations are left until one is refused; below 0 before the first, and 0 for none. */
static long left = -1;

/* Whether this one is refused, which is told by a byte to the descriptor REFUSED_TO. */
static int is_refused(void) {
    if (left < 0) left = atol(getenv("REFUSED"));
    if (left == 0 || --left > 0) return 0;
    return write(atoi(getenv("REFUSED_TO")), "x", 1) == 1;
}

void *malloc(size_t size) {
    static void *(*next)(size_t);
    if (!next) next = (void *(*)(size_t)) dlsym(RTLD_NEXT, "malloc");
    return is_refused() ? NULL : next(size);
}

void *realloc(void *memory, size_t size) {
    static void *(*next)(void *, size_t);
    if (!next) next = (void *(*)(void *, size_t)) dlsym(RTLD_NEXT, "realloc");
    return is_refused() ? NULL : next(memory, size);
}
"""


def made_file(path):
    """Makes a picture with Exif data, XMP data and an ICC profile."""
    profile = path.with_suffix(".icc")
    profile.write_bytes(bytes(range(256)) * 300)
    path.write_bytes(
        output_of(["cjpeg", "-quality", "90", "-icc", str(profile)], ppm("gradient", 203, 151))
    )
    output_of(
        [
            "exiftool",
            "-q",
            "-overwrite_original",
            "-n",
            "-Orientation=6",
            "-XMP-dc:Description=text",
            str(path),
        ],
        b"",
    )
    return path


def runs_of(photo, movie, frames):
    """The runs: a program's crate, its words, and what stands on its standard input."""
    yield "zaxbriar_cli", ["pnm", photo], b""
    yield "zaxbriar_cli", ["pnm", "--scale", "1/4"], photo.read_bytes()
    yield "zaxbriar_cli", ["thumbnail", "--max", "100x90", photo], b""
    yield "zaxbriar_cli", ["thumbnail", "--max", "1000x1000", "--as-stored", photo], b""
    yield "zaxbriar_cli", ["info", photo], b""
    yield "zaxbriar_cli", ["info", "--json", photo], b""
    yield "zaxbriar_cli", ["raw", photo], b""
    for option in ("--exif", "--xmp", "--icc"):
        yield "zaxbriar_cli", ["info", option, "-", photo], b""
    yield "zaxbriar_cli", ["frames", frames], b""
    yield "zaxbriar_cli", ["frames", "--list", movie], b""
    yield "jpegraw", [], photo.read_bytes()


def refused_run(command, stdin, shim, number):
    """What a run gives whose allocation of this number is refused, and whether there was one."""
    told, told_to = os.pipe()
    settings = {
        **os.environ,
        "LD_PRELOAD": str(shim),
        "REFUSED": str(number),
        "REFUSED_TO": str(told_to),
    }
    done = subprocess.run(
        command, input=stdin, capture_output=True, env=settings, pass_fds=[told_to], timeout=120
    )
    os.close(told_to)
    was_refused = os.read(told, 1) == b"x"
    os.close(told)
    return done, was_refused


def faults_of(command, stdin, shim):
    """How many runs there are until no allocation is refused, and which of them end otherwise than
    they have to."""
    whole = subprocess.run(command, input=stdin, capture_output=True, check=True).stdout
    faults, number, was_refused = [], 0, True
    while was_refused:
        number += 1
        done, was_refused = refused_run(command, stdin, shim, number)
        says = (
            done.returncode == 1
            and b"out of memory" in done.stderr
            and whole.startswith(done.stdout)
        )
        gives = done.returncode == 0 and done.stdout == whole and not done.stderr
        if not gives and not (was_refused and says):
            faults.append(
                f"{command[0]}, allocation {number}: status {done.returncode}, {done.stderr!r}"
            )
    return number - 1, faults


def main(crates, *files):
    total, faults = 0, []
    with tempfile.TemporaryDirectory() as name:
        folder = Path(name)
        (folder / "refuse.c").write_text(SHIM)
        shim = folder / "refuse.so"
        subprocess.run(
            ["cc", "-O2", "-shared", "-fPIC", "-o", shim, folder / "refuse.c", "-ldl"], check=True
        )
        photo = Path(files[0]) if files else made_file(folder / "made.jpg")
        movie, frames = folder / "movie.avi", folder / "frames.mjpeg"
        picture = ["-f", "lavfi", "-i", "testsrc=size=96x64:rate=5:duration=1"]
        for path in (movie, frames):
            output_of(["ffmpeg", "-v", "error", *picture, "-c:v", "mjpeg", path], b"")
        for program, words, stdin in runs_of(photo, movie, frames):
            command = [str(Path(crates) / program / "out" / program), *map(str, words)]
            number, found = faults_of(command, stdin, shim)
            print(
                f"{' '.join([program, *map(str, words)]).replace(str(folder) + '/', '')}:"
                f" {number} allocations, {len(found)} faults"
            )
            total, faults = total + number, faults + found
    print(f"refused: {total} runs, {len(faults)} faults", *faults, sep="\n")
    return 1 if faults else 0


if __name__ == "__main__":
    sys.exit(main(*sys.argv[1:]))
