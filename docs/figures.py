#!/usr/bin/env python3
"""Checks the figures of the pages that the repository itself has: fails where one isn't so.

Each entry below names a page, a pattern whose group is the figure, and what it has to be. What was
measured (times, memory) stands in one page, with its commit; README's ranges of times are compared
with the tables of docs/SPEED.md.
"""
import math
import re
import subprocess
import sys
from pathlib import Path

ROOT = Path(__file__).resolve().parent.parent
CASES = ROOT / "tests/decoder/data"
# Files of random streams, and how each names those whose answers come of the model alone.
DAMAGED = {
    "partial_random": r"(?m)^case .*(?:flipped|at byte \d+)$",
    "rows_random": r"(?m)^case .*(?:flipped|at byte \d+|closed after \d+ bytes)$",
    "fed_random": r"(?m)^case ",
}


def text(path):
    return (ROOT / path).read_text("utf8")


def cases(name):
    """How many cases a file has."""
    return len(re.findall(r"(?m)^case ", (CASES / f"{name}.case").read_text("utf8")))


def first_decodes(path):
    """How many cases of a file have `decode` or `refusal` as their first call."""
    lines = (it.split(" ")[0].strip() for it in path.open(encoding="utf8"))
    words = [it for it in lines if it not in ("", "#")]
    pairs = zip(words, words[1:])
    return sum(it == "stream" and after in ("decode", "refusal") for it, after in pairs)


def first_number(command):
    """The numbers that a script prints first."""
    said = subprocess.run([ROOT / command[0], *command[1:]], capture_output=True, text=True)
    return [int(it) for it in re.findall(r"\d+", said.stdout)]


def edits(crate):
    return len(list((ROOT / "crates" / crate).glob("*/*.edit")))


def ratios(first, column):
    """The least and the greatest ratio of photographs in a column of a table of docs/SPEED.md, by
    the first cell of its head."""
    table = text("docs/SPEED.md").split(f"\n| {first} |", 1)[1].split("\n\n", 1)[0]
    head, _, *rows = [[it.strip() for it in line.split("|")] for line in table.splitlines()]
    at = head.index(column) + 1
    found = [row[at + 1].split(" to ") for row in rows if row[1].startswith("photographs")]
    return min(float(low) for low, _ in found), max(float(high) for _, high in found)


def rounded(ends):
    """A range to one digit: the greater end is rounded up."""
    return f"{ends[0]:.1f} to {math.ceil(ends[1] * 10 - 1e-9) / 10:.1f}"


def speeds():
    """Gives what README says of times, by the tables of docs/SPEED.md."""
    page = "README.md"
    end = r"of the time of\s+Rust's\s+`jpeg-decoder`"
    yield page, rf"x86-64-v3, it takes ([\d.]+ to [\d.]+) {end}", rounded(
        ratios("ours", "to jpeg-decoder")
    )
    yield page, r"([\d.]+ to [\d.]+) of that of its\s+SSSE3", rounded(
        ratios("ours", "to jpeg-decoder-ssse3")
    )
    yield page, r"([\d.]+ to [\d.]+)\s+of the\s+time of libjpeg-turbo", rounded(
        ratios("ours", "to libjpeg-turbo")
    )
    yield page, r"processors without AVX2 ([\d.]+ to [\d.]+)\s+of the latter", rounded(
        ratios("ours, for x86-64-v2", "to libjpeg-turbo")
    )
    columns = ["ours", "jpeg-decoder", "jpeg-decoder-ssse3", "stb_image"]
    ours, crate, ssse3, stb = [rounded(ratios("to libjpeg-turbo", it)) for it in columns]
    row = f"{ours} | 1 | {crate}, with SSSE3 {ssse3} | {stb}"
    yield page, r"(?m)relative to libjpeg-turbo[^|]*\| (.*) \|$", row


def expected():
    """Gives a page, a pattern and the figure that its group has to be."""
    every = sum(cases(it.stem) for it in CASES.glob("*.case"))
    for page in ("README.md", "docs/CONFORMANCE.md", "CHANGELOG.md"):
        yield page, r"([\d,]+) (?:streams|cases) as text", every
    classes = text("tests/decoder/classes.jsonl")
    for name in ("must", "may", "own"):
        figure = len(re.findall(rf'(?m)"file": "\w+", "class": "{name}"', classes))
        yield "docs/CONFORMANCE.md", rf"(?m)^\| \*{name}\* \| (\d+) \|", figure
    files = ("random", "extreme", "partial_random", "partial_rows", "rows_random", "fed_random")
    drawn = sum(map(cases, files))
    yield "docs/CONFORMANCE.md", r"(\d+) are random streams", drawn
    decoded = sum(map(first_decodes, CASES.glob("*.case")))
    yield "docs/CONFORMANCE.md", r"on the (\d+) streams whose first call", decoded
    yield "docs/TRUST.md", r"(\d+) random\s+streams", drawn
    damaged = sum(
        len(re.findall(pattern, text(CASES / f"{name}.case"))) for name, pattern in DAMAGED.items()
    )
    yield "docs/CONFORMANCE.md", r"those of (\d+)\s+damaged", damaged
    yield "docs/TRUST.md", r"of (\d+) damaged", damaged
    partial = sum(map(cases, ("partial", "partial_random", "partial_rows")))
    yield "docs/TRUST.md", r"of (\d+)\s+cut or\s+damaged streams", partial
    rows = sum(map(cases, ("rows", "rows_random")))
    yield "docs/TRUST.md", r"of (\d+) whole, cut or\s+damaged streams", rows
    parts = len(text("tests/parts/answers").splitlines())
    yield "docs/CONFORMANCE.md", r"each of the (\d+) cases", parts
    yield "CHANGELOG.md", r"(\d+) calls of\s+the parts", parts
    answers = sorted((ROOT / "bindings/c/test/cases").glob("*.answers"))
    calls = sum(len(re.findall(r"(?m)^case ", it.read_text("utf8"))) for it in answers)
    yield "docs/CONFORMANCE.md", r"for its (\d+) cases", calls
    yield "CHANGELOG.md", r"and (\d+)\s+cases of the C library", calls
    yield "docs/TRUST.md", r"on (\d+) streams and headers", calls
    yield from speeds()
    for row in re.findall(r"(?m)^\| ((?:`\w+`(?:, )?)+) \| \d+ \|", text("docs/CONFORMANCE.md")):
        names = re.findall(r"\w+", row)
        yield "docs/CONFORMANCE.md", rf"(?m)^\| {row} \| (\d+) \|", sum(map(cases, names))
    wrong, laws, files = first_number(["tests/wrong_definitions/try", "--check"])
    page = "tests/wrong_definitions/README.md"
    yield page, r"`list` has (\d+) definitions", wrong
    yield page, r"\| tried \| (\d+) \|", wrong
    yield page, r"\((\d+)\s+files\)", files
    yield page, r"of these laws \((\d+):", laws
    least = int(re.search(r"(?m)^LEAST=(\d+)$", text("tests/memory"))[1])
    yield "docs/TRUST.md", r"the last, which is at least (\d+)\s+\(`tests/memory`\)", least
    table = text("tests/real_files/README.md").split("| Files | number | refused by both |", 1)[1]
    counts = re.findall(r"(?m)^\| [^|]* \| (\d+) \| \d+ \| \d+ \|$", table.split("\n\n", 1)[0])
    # (the last one is the stream of frames)
    yield "docs/TRUST.md", r"([\d,]+) files and a\s+stream", sum(map(int, counts)) - 1
    gate = text("docs/GATE.md")
    first = re.search(r"it\s+took\s+(\d+)\s+minutes\s+by\s+the\s+clock\s+and\s+\d", gate)[1]
    yield "README.md", r"proves it first: some (\d+) minutes", first
    yield "README.md", r"info examples/rocket.jpg` \| some (\d+) minutes", first
    whole = re.search(r"takes\s+(\d+ to \d+)\s+minutes\s+with 4", gate)[1]
    yield "README.md", r"`./test` \| (\d+ to \d+) minutes on 4", whole
    for crate in ("test_parts_callers", "test_decoder_callers", "test_zaxbriar_callers"):
        yield "docs/GATE.md", rf"`{crate}` with (\d+) edits", edits(crate)


def main():
    wrong = 0
    for page, pattern, figure in expected():
        found = re.findall(pattern, text(page))
        if not found:
            print(f"{page} has no figure by the pattern {pattern}")
        wrong += not found
        for it in found:
            if it.replace(",", "") != str(figure).replace(",", ""):
                print(f"{page} says {it}, and it is {figure}: {pattern}")
                wrong += 1
    sys.exit(1 if wrong else 0)


main()
