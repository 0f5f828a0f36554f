"""The programs that are measured: ours first, and others beside them."""

import os
import re
import subprocess
from pathlib import Path

from files import AS_STORED

TURBO = "libjpeg-turbo"
NO_SIMD = {"JSIMD_FORCENONE": "1"}
NO_AVX2 = {"JSIMD_FORCESSE2": "1"}
# What ./use asks of the C library.
LARGE_PAGES = {"GLIBC_TUNABLES": "glibc.malloc.hugetlb=1"}
TIMES = re.compile(r"process time: best ([\d.]+) ms, median ([\d.]+) ms")
TAKEN = re.compile(r"takes (\d+) bytes")


class Program:
    """A program by its name, with a call that makes its words for a case, or None where it can't
    decode that. The file is its standard input, and its path stands where the words have FILE."""

    def __init__(self, name, words_of, environment=None):
        self.name, self.words_of = name, words_of
        self.environment = os.environ | (environment or {})

    def words(self, case, path):
        words = self.words_of(case)
        return words and [str(path) if word == "FILE" else word for word in words]


class Repeated(Program):
    """A program that decodes a file so many times from memory, and prints what that takes."""

    def run(self, case, path, decodings):
        """The least and the median of the milliseconds of a decoding, or None where it can't."""
        words = [str(decodings) if word == "N" else word for word in self.words(case, path)]
        with open(path, "rb") as stdin:
            done = subprocess.run(
                words, stdin=stdin, env=self.environment, capture_output=True, text=True
            )
        if done.returncode != 0:
            return None
        found = TIMES.search(done.stderr)
        if not found:
            raise SystemExit(f"{words[0]} doesn't ask for the time around each decoding")
        return tuple(map(float, found.groups()))


class Whole(Program):
    """A program that decodes a file once and writes its picture, here to nowhere."""

    def run(self, case, path):
        """The milliseconds of processor time of its process, or None where it can't."""
        words = self.words(case, path)
        if not words:
            return None
        with open(path, "rb") as stdin:
            quiet = {"stdout": subprocess.DEVNULL, "stderr": subprocess.DEVNULL}
            process = subprocess.Popen(words, stdin=stdin, env=self.environment, **quiet)
            _, status, usage = os.wait4(process.pid, 0)
            process.returncode = os.waitstatus_to_exitcode(status)
        return 1e3 * (usage.ru_utime + usage.ru_stime) if process.returncode == 0 else None

    def peak(self, case, path):
        """The most memory that it holds, in bytes. A small program starts it, since the memory of
        what starts it counts too."""
        words = ["/usr/bin/time", "-f", "%M", *self.words(case, path)]
        quiet = {"stdout": subprocess.DEVNULL, "stderr": subprocess.PIPE}
        return 1024 * int(subprocess.run(words, env=self.environment, check=True, **quiet).stderr)


def peer_words(peer, case, *more):
    """The words of a program of another decoder for a case."""
    scale = ["--scale", "%dx%d" % case.scaled_size()] if case.scale > 1 else []
    return [peer, *scale, *more, "FILE"]


def clocked(tools):
    """The environment of a program that prints no times of the processor itself."""
    return {"LD_PRELOAD": str(tools / "clock.so")}


def words_of_tool(path):
    """A call that makes the words of a program with repeat.c in it."""

    def words(case):
        layout = [] if case.layout == AS_STORED else [case.layout]
        return [str(path), "N", str(case.scale), *layout]

    return words


def peer_programs(tools, peers):
    """The programs that are given."""
    for peer in peers:
        yield Repeated(
            Path(peer).name,
            lambda case, peer=peer: peer_words(peer, case, "--repeat", "N"),
            clocked(tools),
        )


def later_turbo(tools, environment=None):
    """The program of libjpeg-turbo over a later library, where that is there."""
    run, turbo = tools / "turbo3" / "run", words_of_tool(tools / "turbo")
    if run.exists():
        yield Repeated("libjpeg-turbo 3", lambda case: [str(run), *turbo(case)], environment)


def repeated_programs(decoding, tools, peers):
    """The programs that decode from memory."""

    def ours(case):
        return [decoding, "N", *(map(str, case.scaled_size()) if case.scale > 1 else [])]

    turbo = words_of_tool(tools / "turbo")
    yield Repeated("ours", ours, clocked(tools))
    yield from peer_programs(tools, peers)
    yield Repeated(TURBO, turbo)
    yield Repeated("the same without SIMD", turbo, NO_SIMD)
    yield from later_turbo(tools)
    yield Repeated("stb_image", words_of_tool(tools / "stb"))
    if (tools / "go_image").exists():
        yield Repeated("Go", words_of_tool(tools / "go_image"))


def library_programs(tools):
    """The C library, which has layouts, and libjpeg-turbo."""
    yield Repeated("the C library", words_of_tool(tools / "library"))
    yield Repeated(TURBO, words_of_tool(tools / "turbo"))


def pillow_programs(clients):
    """Pillow with the plugin over the C library, and Pillow as it is."""
    library = str(clients.parent / "c" / "out")
    modules = os.pathsep.join(str(clients / name) for name in ("pillow", "python"))
    with_plugin = {"LD_LIBRARY_PATH": library, "PYTHONPATH": modules}
    decode = ["/usr/bin/python3", "-B", str(Path(__file__).with_name("pillow.py")), "N", "1"]
    yield Repeated("Pillow with the plugin", lambda _: [*decode, "zaxbriar_pillow"], with_plugin)
    yield Repeated("Pillow", lambda _: decode)


def programs_for_v2(tools, peers):
    """The C library and libjpeg-turbo as they run on a processor without AVX2, and others."""
    yield Repeated("ours, for x86-64-v2", words_of_tool(tools / "library_v2"))
    yield from peer_programs(tools, peers)
    yield Repeated(TURBO, words_of_tool(tools / "turbo"), NO_AVX2)
    yield from later_turbo(tools, NO_AVX2)


def pnm_words(zaxbriar, case):
    return [zaxbriar, "pnm", "--scale", "1" if case.scale == 1 else f"1/{case.scale}"]


# the program that writes what a file shows up to its first fault
PARTIAL = "zaxbriar pnm --partial"


def whole_programs(zaxbriar, jpegraw, peers):
    """The programs that decode a file and write its picture."""

    def pnm(case):
        return [*pnm_words(zaxbriar, case), "FILE"]

    def djpeg(case):
        return ["djpeg", "-dct", "int", "-pnm", "-scale", f"1/{case.scale}", "FILE"]

    yield Whole("zaxbriar pnm", pnm)
    yield Whole("the same with large pages", pnm, LARGE_PAGES)
    yield Whole(PARTIAL, lambda case: [*pnm_words(zaxbriar, case), "--partial", "FILE"])
    yield Whole("jpegraw", lambda case: [jpegraw] if case.scale == 1 else None)
    yield Whole("djpeg", djpeg)
    yield Whole("djpeg without SIMD", djpeg, NO_SIMD)
    for peer in peers:
        yield Whole(Path(peer).name, lambda case, peer=peer: peer_words(peer, case))


def bytes_by_header(zaxbriar, case, path):
    """What a decoding takes by the header: what the program says that refuses more than a byte."""
    words = [*pnm_words(zaxbriar, case), "--max-memory", "1", str(path)]
    done = subprocess.run(words, capture_output=True, text=True)
    return int(TAKEN.search(done.stderr)[1])
