#!/usr/bin/env python3
"""Compares what this crate shows of Mozilla's JPEG images with their references and with what the
original shows, whole and cut.

    reftest.py [--every] FOLDER HERE ORIGINAL..

FOLDER is Firefox's image/test/reftest/jpeg. HERE is a program of decode.rs over this crate, and an
ORIGINAL one over the original, or one that reads and writes the same. Whole files have to give the
same picture, or refusals.

Each file that has a picture is cut at 10, 50 and 90 percent, with `--every` at each percent; two
files are cut as they are. `decode` has to refuse what is cut, and `decode_partial` has to show what
the model of ../../../../tests/model computes. Of a baseline file as many of its first
rows have to be those of the whole picture as of djpeg's, which may have one row of MCUs more. How
far pictures and rows are from the references is told; it is a fault only if the originals differ.

Needs djpeg, and pngtopnm and ppmtoppm of netpbm.
"""
import re
import subprocess
import sys
from collections import Counter
from pathlib import Path

sys.path.insert(0, str(Path(__file__).resolve().parents[4] / "tests/model"))
from model import shown
from pictures import picture_of

DJPEG = ["djpeg", "-dct", "int"]
# By how much a sample may differ from its reference, as in the original's own test.
MOST = 2


def run(command, data):
    return subprocess.run(command, input=data, capture_output=True, timeout=600)


class Picture:
    """A picture as rows of samples."""

    def __init__(self, said, pixels):
        width, height, self.format = said.split()
        self.size = int(width), int(height)
        step = len(pixels) // self.size[1]
        self.rows = [pixels[at : at + step] for at in range(0, len(pixels), step)]

    def row_in_rgb(self, y):
        row = self.rows[y]
        if self.format == "L8":
            return bytes(sample for sample in row for _ in range(3))
        if self.format == "CMYK32":
            inks = range(len(row))
            return bytes((255 - row[i]) * (255 - row[i | 3]) // 255 for i in inks if i % 4 < 3)
        return row

    def rows_as(self, other):
        """Counts the rows from the top that are the other's."""
        pairs = enumerate(zip(self.rows, other.rows))
        return next((y for y, (row, its) in pairs if row != its), len(self.rows))

    def rows_near(self, other):
        """Counts the rows from the top that are as the reference's."""
        every = range(len(self.rows))
        return next((y for y in every if self.furthest(other, [y])[0] > MOST), len(every))

    def furthest(self, other, rows):
        """Returns the greatest difference of samples in RGB in some rows, and the mean one."""
        pairs = (pair for y in rows for pair in zip(self.row_in_rgb(y), other.row_in_rgb(y)))
        apart = [abs(a - b) for a, b in pairs] or [0]
        return max(apart), sum(apart) / len(apart)


def picture(output):
    """Returns the picture that a program has written, if it has."""
    read = picture_of(output)
    return read and Picture(*read)


def model_picture(jpeg):
    """Returns what the model shows of a file up to its first fault, if it shows anything."""
    kind, *answer = shown(jpeg)
    return Picture("%d %d %s" % tuple(answer[:3]), bytes(answer[3])) if kind == "ok" else None


def references(folder):
    """Returns the PNG file that each JPEG file has to look like."""
    pairs = re.findall(r"== +(\S+\.jpg) +(\S+\.png)", (folder / "reftest.list").read_text())
    pnm = {png: run(["pngtopnm", folder / png], None).stdout for _, png in pairs}
    return {jpg: picture(run(["ppmtoppm"], pnm[png]).stdout) for jpg, png in pairs}


def is_baseline(jpeg):
    """Returns whether the first frame header is that of a baseline frame."""
    at = 2
    while jpeg[at + 1] & 0xF0 != 0xC0 or jpeg[at + 1] == 0xC4:
        at += 2 + int.from_bytes(jpeg[at + 2 : at + 4], "big")
    return jpeg[at + 1] == 0xC0


class Judge:
    """What became of the files, and the faults."""

    def __init__(self, folder, here, originals):
        self.here, self.originals = here, originals
        self.references = references(folder)
        self.tally, self.faults = Counter(), []

    def partial(self, name, jpeg):
        """Returns what `decode_partial` shows of a file that `decode` must refuse."""
        done, model = run([self.here, "--partial"], jpeg), model_picture(jpeg)
        mine = picture(done.stdout)
        if run([self.here], jpeg).returncode != 1:
            self.faults.append(f"{name}: decoded")
        if done.returncode != (3 if model else 1) or not done.stderr:
            self.faults.append(f"{name}: status {done.returncode}")
        if bool(mine) != bool(model) or mine and mine.rows != model.rows:
            self.faults.append(f"{name}: another picture than the model's")
        return mine

    def to_reference(self, name, mine, rows):
        """Says how far rows of a picture are from those of its reference."""
        reference = self.references.get(name)
        if not reference:
            return "no reference"
        if mine.size != reference.size:
            return "another size than the reference"
        most, mean = mine.furthest(reference, rows)
        verdict = "as" if most <= MOST else "not as"
        return f"{verdict} the reference (differs by {most} at most, {mean:.2f} on average)"

    def judge_whole(self, name, jpeg):
        """Compares a file as it is. Returns its picture, if it has one."""
        answers = [run([program], jpeg) for program in [self.here, *self.originals]]
        for program, answer in zip(self.originals, answers[1:]):
            is_same = (answer.returncode, answer.stdout) == (0, answers[0].stdout)
            if not is_same and not (answer.returncode and answers[0].returncode):
                self.faults.append(f"{name}: {program} differs")
        mine = picture(answers[0].stdout)
        if mine:
            partial = run([self.here, "--partial"], jpeg)
            if (partial.returncode, partial.stdout) != (0, answers[0].stdout):
                self.faults.append(f"{name}: decode_partial differs from decode")
            said = self.to_reference(name, mine, range(mine.size[1]))
            self.tally["whole: " + said.split(" (")[0]] += 1
            print(f"{name}: {said}")
            return mine
        print(f"{name}: refused: {answers[0].stderr.decode().strip()}")
        self.tally["whole: refused"] += 1
        there = self.partial(name, jpeg)
        if there:
            self.tally["whole: refused, but decode_partial shows something"] += 1
            self.judge_beginning(name, there, picture(run(DJPEG, jpeg).stdout))
        return None

    def judge_beginning(self, name, mine, by_djpeg):
        """Says what there is of a file that is cut as it is."""
        height = mine.size[1]
        count = mine.rows_near(self.references[name])
        most, mean = mine.furthest(by_djpeg, range(height))
        print(f"{name}: the first {count} of {height} rows are as in the reference;")
        print(f"    to djpeg's all differ by {most} at most, {mean:.2f} on average")

    def judge_cut(self, name, jpeg, percent, whole):
        """Compares what there is of a cut file with its whole picture."""
        title, cut = f"{name} at {percent} percent", jpeg[: len(jpeg) * percent // 100]
        mine = self.partial(title, cut)
        if not mine:
            self.tally["cut: before the end of the frame header"] += 1
        elif not is_baseline(jpeg):
            self.tally["cut: progressive"] += 1
        else:
            self.tally["cut: baseline"] += 1
            self.judge_rows(title, name, (mine, whole), (cut, jpeg))

    def judge_rows(self, title, name, pictures, files):
        """Compares the rows that there are of a baseline file with those of its whole picture."""
        mine, whole = pictures
        count, height = mine.rows_as(whole), whole.size[1]
        by_djpeg = [picture(run(DJPEG, file).stdout) for file in files]
        theirs = by_djpeg[0].rows_as(by_djpeg[1]) if by_djpeg[0] else 0
        self.tally["rows of these"] += height
        self.tally["rows of these that are there"] += count
        self.tally["rows of these that are there by djpeg"] += theirs
        # djpeg guesses the bits that the MCU lacks in which the file is cut: where it is right, it
        # may show one row of MCUs more.
        if not count <= theirs <= count + 16:
            self.faults.append(f"{title}: {count} rows are there, by djpeg {theirs}")
        if count:
            print(f"{title}: {count} of {height}: {self.to_reference(name, mine, range(count))}")


def main():
    words = [word for word in sys.argv[1:] if word != "--every"]
    percents = range(1, 100) if "--every" in sys.argv else (10, 50, 90)
    folder, here, *originals = words
    folder = Path(folder)
    judge = Judge(folder, here, originals)
    for path in sorted(folder.glob("*.jpg")):
        jpeg = path.read_bytes()
        whole = judge.judge_whole(path.name, jpeg)
        for percent in percents if whole else ():
            judge.judge_cut(path.name, jpeg, percent, whole)
    for what, count in sorted(judge.tally.items()):
        print(f"{count:6} {what}")
    print("\n".join(judge.faults) or "no fault")
    return bool(judge.faults)


sys.exit(main())
