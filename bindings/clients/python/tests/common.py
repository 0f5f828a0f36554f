"""What the tests share: where the files are, and the cases of ../../../c/test."""

import os
import sys
from pathlib import Path

if os.environ.get("WITHOUT_NUMPY"):
    sys.modules["numpy"] = None
try:
    import numpy
except ImportError:
    numpy = None

TOP = Path(__file__).resolve().parents[4]
sys.path.append(str(TOP / "bindings/clients"))


def file(name):
    """The bytes of a file of ../../../../tests/programs/files."""
    return (TOP / "tests/programs/files" / name).read_bytes()


def bytes_of(words):
    """The bytes of words of hex digits; a star and a number after one repeat its bytes."""
    parts = (word.partition("*") for word in words)
    return b"".join(bytes.fromhex(digits) * int(times or 1) for digits, _, times in parts)


def cases():
    """Gives each call of the cases: its stream, its line, and the answer that it is to have."""
    for path in sorted((TOP / "bindings/c/test/cases").glob("*.case")):
        answers = iter(path.with_suffix(".answers").read_text().splitlines())
        words = []
        for line in path.read_text().splitlines():
            kind = line.split(" ")[0]
            if kind == "stream":
                words += line.split()[1:]
            elif kind == "case":
                words = []
                next(answers)
            elif kind and kind != "#":
                call, _, answer = next(answers).partition(": ")
                assert call == line
                yield bytes_of(words), line, answer
