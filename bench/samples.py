"""Where the time of our decodings goes, by the samples that perf takes."""

import re
import subprocess

from files import Case, written
from markdown import head, line

CASES = [
    Case("photograph", (512, 384), "4:4:4"),
    Case("photograph", (512, 384), "4:2:0"),
    Case("photograph", (512, 384), "4:2:0, progressive"),
    Case("photograph", (2000, 1500), "4:2:0"),
]
PIXELS = 400_000_000  # that are decoded of each
SAMPLES = 5000  # a second
LEAST_SHARE = 2  # percent of some case, for a line of its own
SAMPLE = re.compile(r"\s*([\d.]+)%\s+\[(.)\]\s+(\S+)")
SYSTEM, REST = "the system", "the rest"


def plain_name(kind, symbol):
    """The name of a function without what the compilers add to it."""
    if kind != ".":
        return SYSTEM
    symbol = re.sub(r"::<.*", "", symbol)
    return re.sub(r"^_+(mem[a-z]+)_.*", r"\1", symbol)


def shares(program, case, folder):
    """The percents of the samples that each function has while a file is decoded."""
    path, data = written(case, folder), folder / "perf.data"
    decodings = str(PIXELS // (case.size[0] * case.size[1]))
    words = ["perf", "record", "-q", "-F", str(SAMPLES), "-o", data, program, decodings]
    with open(path, "rb") as stdin:
        quiet = {"stdout": subprocess.DEVNULL, "stderr": subprocess.DEVNULL}
        subprocess.run(words, stdin=stdin, check=True, **quiet)
    words = ["perf", "report", "-q", "--stdio", "-F", "overhead,symbol", "-i", data]
    report = subprocess.run(words, capture_output=True, text=True, check=True).stdout
    found = {}
    for percent, kind, symbol in SAMPLE.findall(report):
        name = plain_name(kind, symbol)
        found[name] = found.get(name, 0) + float(percent)
    return found


def print_profile(program, folder):
    """Prints a line for each function that takes much in some case, the dearest first."""
    columns = [shares(program, case, folder) for case in CASES]
    titles = [f"{case.title()}, {case.coding()}" for case in CASES]
    print("\n## Where the time goes, from memory\n\n" + head(["percent of the samples", *titles]))
    most = {name: max(column.get(name, 0) for column in columns) for name in set().union(*columns)}
    names = [name for name in most if most[name] >= LEAST_SHARE]
    for name in sorted(names, key=most.get, reverse=True):
        print(line([name, *(f"{column.get(name, 0):.0f}" for column in columns)]))
    rest = (sum(column.values()) - sum(column.get(name, 0) for name in names) for column in columns)
    print(line([REST, *(f"{share:.0f}" for share in rest)]), flush=True)
