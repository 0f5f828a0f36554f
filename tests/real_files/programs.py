"""Compares the program `zaxbriar` with those of others on photographs, or on files that cjpeg,
ImageMagick and exiftool make where none are named.

programs.py ZAXBRIAR [FILE..]: for each file it compares
- what `info --json` says with `identify` (sizes, components' sampling), `exiftool` (process,
  precision, orientation) and the bytes of exiftool's Exif, XMP and ICC data with those that
  `info --exif`, `--xmp` and `--icc` write;
- the sizes of `pnm` at each scale with those of `djpeg -scale`, and the samples of the whole
  picture with djpeg's (the mean difference is printed, for djpeg upsamples in another way);
- the PNG files of `pnm --png`, as netpbm's `pngtopnm` reads them, with the PGM or PPM of `pnm`;
- the sizes of `thumbnail` with those of ImageMagick's `-thumbnail`, its samples with the means of
  the boxes of `pnm`'s picture at the least scale that isn't smaller, and the picture with that
  of `--as-stored` turned by ImageMagick's `-auto-orient`, sample by sample;
- the frames of `frames` with those of ffmpeg as rawvideo, from plain frames and from AVI
  files with and without sound, which have to give the same samples, and with those of its numbered
  files. The status is 1 where something differs that has to be the same.
"""

import json
import subprocess
import sys
import tempfile
from pathlib import Path

from pictures import ppm
from streams import output_of

SCALES = {"1/8": 1, "1/4": 2, "1/2": 4, "1": 8}
SIZES = ("128x128", "50x1000", "1x1", "100x9", "640x480")
PROCESSES = {
    "baseline": "Baseline DCT",
    "extended": "Extended sequential DCT",
    "progressive": "Progressive DCT",
    "lossless": "Lossless",
}


class Tools:
    """The words of the program that was built."""

    def __init__(self, zaxbriar):
        self.zaxbriar = str(Path(zaxbriar).resolve())

    def run(self, *words, stdin=b""):
        return output_of([self.zaxbriar, *map(str, words)], stdin)


def made_files(folder):
    """Files of each sampling, process and orientation, with and without metadata."""
    profile = folder / "any.icc"
    profile.write_bytes(bytes(range(256)) * 300)
    number = 0
    for sampling in ("1x1", "2x1", "1x2", "2x2"):
        for words in ([], ["-progressive"], ["-restart", "1"], ["-icc", profile]):
            number += 1
            path = folder / f"made-{number}.jpg"
            path.write_bytes(
                output_of(
                    ["cjpeg", "-quality", "90", "-sample", sampling, *map(str, words)],
                    ppm("gradient", 203, 151),
                )
            )
            tags = [
                "-n",
                f"-Orientation={1 + number % 8}",
                "-Artist=nobody",
                "-XMP-dc:Description=" + 200 * "x",
            ]
            if number % 3:
                output_of(["exiftool", "-q", "-overwrite_original", *tags, path], b"")
            yield path
    grey = folder / "grey.jpg"
    grey.write_bytes(output_of(["cjpeg", "-grayscale"], ppm("checks", 97, 64)))
    yield grey
    four = folder / "four.jpg"
    output_of(["convert", "ppm:-", "-colorspace", "CMYK", four], ppm("gradient", 60, 44))
    yield four


def size_of(netpbm):
    """The width and height of a PGM, PPM or PAM file of ours or of djpeg."""
    if netpbm.startswith(b"P7"):
        words = netpbm.split(b"ENDHDR")[0].split()
        return [int(words[words.index(key) + 1]) for key in (b"WIDTH", b"HEIGHT")]
    return [int(word) for word in netpbm.split(None, 3)[1:3]]


def samples_of(netpbm):
    """The samples of a PGM, PPM or PAM file."""
    return (
        netpbm.split(b"ENDHDR\n", 1)[1] if netpbm.startswith(b"P7") else netpbm.split(b"\n", 3)[3]
    )


def description_faults(tools, path):
    """What `info` says in another way than identify and exiftool."""
    said = json.loads(tools.run("info", "--json", path))[0]
    tags = [
        "-Orientation",
        "-EncodingProcess",
        "-BitsPerSample",
        "-ColorComponents",
        "-ImageWidth",
        "-ImageHeight",
    ]
    theirs = json.loads(output_of(["exiftool", "-j", "-n", *tags, path], b""))[0]
    names = json.loads(output_of(["exiftool", "-j", "-EncodingProcess", path], b""))[0]
    width, height = output_of(["identify", "-format", "%w %h", path], b"").split()
    pairs = {
        "width": (said["width"], int(width)),
        "height": (said["height"], int(height)),
        "precision": (said["precision"], theirs["BitsPerSample"]),
        "components": (len(said["components"]), theirs["ColorComponents"]),
        "orientation": (said["orientation"], theirs.get("Orientation")),
    }
    faults = [f"{key} {ours}, not {other}" for key, (ours, other) in pairs.items() if ours != other]
    if not names["EncodingProcess"].startswith(PROCESSES[said["process"]]):
        faults.append(f"process {said['process']}, not {names['EncodingProcess']}")
    if len(said["components"]) > 1:
        sampling = output_of(["identify", "-format", "%[jpeg:sampling-factor]", path], b"").decode()
        ours = ",".join(f"{each['horizontal']}x{each['vertical']}" for each in said["components"])
        if ours != sampling:
            faults.append(f"sampling {ours}, not {sampling}")
    return faults


def data_faults(tools, path):
    """Which of exiftool's Exif, XMP and ICC data `info` doesn't write as they are."""
    faults = []
    for option, tag in (("--exif", "-Exif"), ("--xmp", "-XMP"), ("--icc", "-ICC_Profile")):
        theirs = output_of(["exiftool", "-b", tag, path], b"")
        done = subprocess.run([tools.zaxbriar, "info", option, "-", path], capture_output=True)
        if done.stdout != theirs or (done.returncode == 0) != bool(theirs):
            faults.append(f"{option}: {len(done.stdout)} bytes, not {len(theirs)}")
    return faults


def picture_faults(tools, path, means):
    """Which sizes and samples of `pnm` aren't djpeg's."""
    faults = []
    for scale, eighths in SCALES.items():
        ours = tools.run("pnm", "--scale", scale, path)
        if ours.startswith(b"P7"):
            continue
        theirs = output_of(["djpeg", "-dct", "int", "-pnm", "-scale", f"{eighths}/8", path], b"")
        if size_of(ours) != size_of(theirs):
            faults.append(f"at {scale} {size_of(ours)}, not {size_of(theirs)}")
        elif scale == "1":
            pairs = list(zip(samples_of(ours), samples_of(theirs)))
            means.append(sum(abs(a - b) for a, b in pairs) / len(pairs))
            if len(samples_of(ours)) != len(samples_of(theirs)):
                faults.append("another number of samples")
    return faults


def png_faults(tools, path):
    """Whether netpbm reads another picture from the PNG file than `pnm` writes. Samples of other
    than 8 and 16 bits are scaled there."""
    ours = tools.run("pnm", path)
    if ours.startswith(b"P7") or ours.split(None, 4)[3] not in (b"255", b"65535"):
        return []
    read = output_of(["pngtopnm"], tools.run("pnm", "--png", path))
    return [] if read == ours else ["netpbm reads another picture from the PNG file"]


def orientation_of(path):
    """The orientation that exiftool reads, or 1."""
    return json.loads(output_of(["exiftool", "-j", "-n", "-Orientation", path], b""))[0].get(
        "Orientation", 1
    )


def turned(netpbm, orientation):
    """A picture turned upright by ImageMagick."""
    names = "Undefined TopLeft TopRight BottomRight BottomLeft".split()
    names += "LeftTop RightTop RightBottom LeftBottom".split()
    return output_of(
        ["convert", "pnm:-", "-orient", names[orientation], "-auto-orient", "-depth", "8", "pnm:-"],
        netpbm,
    )


def boxed(samples, count, own, size):
    """The means of the boxes of a picture of so many samples a pixel."""
    (width, height), (columns, lines) = own, size
    across = [x * width // columns for x in range(columns + 1)]
    down = [y * height // lines for y in range(lines + 1)]
    means = bytearray()
    for top, bottom in zip(down, down[1:]):
        rows = [samples[y * width * count : (y + 1) * width * count] for y in range(top, bottom)]
        for left, right in zip(across, across[1:]):
            number = (bottom - top) * (right - left)
            for c in range(count):
                total = sum(sum(row[left * count + c : right * count : count]) for row in rows)
                means.append((2 * total + number) // (2 * number))
    return bytes(means)


def thumbnail_faults(tools, path, most):
    """Whether `thumbnail` gives another size than ImageMagick, other samples than the means of
    boxes, or turns the picture in another way."""
    ours = tools.run("thumbnail", "--max", most, path)
    stored = tools.run("thumbnail", "--max", most, "--as-stored", path)
    faults = []
    for words, made in ((["-auto-orient"], ours), ([], stored)):
        theirs = output_of(
            ["convert", path, *words, "-thumbnail", most + ">", "-format", "%w %h", "info:"], b""
        ).split()
        if size_of(made) != [int(side) for side in theirs]:
            faults.append(f"thumbnail of {size_of(made)}, not {theirs}")
    size = size_of(stored)
    for scale in SCALES:
        whole = tools.run("pnm", "--scale", scale, path)
        if all(side >= least for side, least in zip(size_of(whole), size)):
            break
    count = {b"P5": 1, b"P6": 3, b"P7": 4}[whole[:2]]
    if samples_of(stored) != boxed(samples_of(whole), count, size_of(whole), size):
        faults.append(f"thumbnail of {size} at {scale}: other samples than the means of boxes")
    if whole.startswith(b"P7"):
        return faults
    orientation = orientation_of(path)
    if orientation > 4:
        stored = tools.run(
            "thumbnail", "--max", "x".join(reversed(most.split("x"))), "--as-stored", path
        )
    upright = turned(stored, orientation)
    if size_of(upright) != size_of(ours) or samples_of(upright) != samples_of(ours):
        faults.append("another picture than ImageMagick's")
    return faults


def movie(folder, name, *words):
    """A movie of ten frames of 96x64 by ffmpeg."""
    picture = ["-f", "lavfi", "-i", "testsrc=size=96x64:rate=5:duration=2"]
    output_of(["ffmpeg", "-v", "error", *picture, *words, "-c:v", "mjpeg", folder / name], b"")
    return folder / name


def frame_faults(tools, folder):
    """Whether the frames of MJPEG streams and AVI files are those of ffmpeg, by number and size,
    and those of the numbered files, by sample."""
    sound = ["-f", "lavfi", "-i", "sine=duration=2", "-c:a", "pcm_s16le"]
    movies = [
        movie(folder, "plain.mjpeg", "-f", "mjpeg"),
        movie(folder, "silent.avi"),
        movie(folder, "sound.avi", *sound),
    ]
    faults, first = [], None
    for path in movies:
        raw = tools.run("frames", path)
        theirs = output_of(
            ["ffmpeg", "-v", "error", "-i", path, "-f", "rawvideo", "-pix_fmt", "rgb24", "-"], b""
        )
        tools.run("frames", "-o", folder / (path.name + "-%04d.ppm"), path)
        numbered = b"".join(
            samples_of(frame.read_bytes()) for frame in sorted(folder.glob(path.name + "-*.ppm"))
        )
        back = [
            "ffmpeg",
            "-v",
            "error",
            "-f",
            "rawvideo",
            "-pixel_format",
            "rgb24",
            "-video_size",
            "96x64",
            "-i",
            "-",
            "-f",
            "framemd5",
            "-",
        ]
        read = [
            line for line in output_of(back, raw).decode().splitlines() if not line.startswith("#")
        ]
        first = first or raw
        if len(raw) != len(theirs):
            faults.append(f"{path.name}: {len(raw)} bytes of frames, not {len(theirs)}")
        if numbered != raw:
            faults.append(f"{path.name}: the numbered files have other samples than the stream")
        if len(read) != 10:
            faults.append(f"{path.name}: ffmpeg reads {len(read)} frames, not 10")
        if raw != first:
            faults.append(f"{path.name}: other samples than of the plain frames")
        mean = sum(abs(a - b) for a, b in zip(raw, theirs)) / len(theirs)
        print(
            f"{path.name}: {len(raw) // (96 * 64 * 3)} frames,"
            f" mean difference from ffmpeg's {mean:.3f}"
        )
    return faults


def main(zaxbriar, *files):
    tools, faults, means = Tools(zaxbriar), [], []
    with tempfile.TemporaryDirectory() as name:
        folder = Path(name)
        paths = [Path(file) for file in files] or list(made_files(folder))
        for path in paths:
            found = description_faults(tools, path) + data_faults(tools, path)
            found += picture_faults(tools, path, means) + png_faults(tools, path)
            found += [fault for most in SIZES for fault in thumbnail_faults(tools, path, most)]
            faults += [f"{path.name}: {fault}" for fault in found]
        faults += frame_faults(tools, folder)
    print(
        f"programs: {len(paths)} files, greatest mean difference from djpeg {max(means):.3f},"
        f" {len(faults)} faults"
    )
    print(*faults, sep="\n", end="\n" if faults else "")
    return 1 if faults else 0


if __name__ == "__main__":
    sys.exit(main(*sys.argv[1:]))
