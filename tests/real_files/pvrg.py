"""Lossless files of `pvrg-jpeg` (Debian's package of that name): `jpegraw` gives back the samples
of those that T.81 covers, and the others hold samples by another rule.

`pvrg-jpeg` predicts each sample by the selection alone, as if a line of 2^(P-1) stood above the
first, and never begins anew at a restart. T.81, H.1.2.1 predicts the first line of an interval from
the left, whatever the selection. The two agree for the selections 1, 4 and 5 without restarts.
"""

import random
import subprocess
import sys
import tempfile
from pathlib import Path

WIDTH, HEIGHT = 97, 61
AS_IN_T81 = (1, 4, 5)


def samples_of(bits, seed):
    """Samples of a smooth ramp with grain."""
    chance, most, out = random.Random(seed), (1 << bits) - 1, []
    for y in range(HEIGHT):
        for x in range(WIDTH):
            value = (x * 3 + y * 5) * most // (8 * (WIDTH + HEIGHT))
            grain = chance.randint(-most // 30 - 1, most // 30 + 1)
            out.append(min(most, max(0, value + grain)))
    return out


def stored(samples, bits, order):
    return b"".join(it.to_bytes(1 if bits <= 8 else 2, order) for it in samples)


def without_tables(stream):
    """The stream with no quantization tables named: `pvrg-jpeg` names 1 for later components, where
    a lossless frame has only 0 (T.81, Table B.2)."""
    header = stream.index(b"\xff\xc3") + 4
    out = bytearray(stream)
    for number in range(stream[header + 5]):
        out[header + 8 + 3 * number] = 0
    return bytes(out)


def coded(folder, planes, bits, selection, interval):
    """The stream that pvrg-jpeg writes for these planes, each in a scan of its own: its tables for
    interleaved components lack codes, and it stops."""
    names = []
    for number, samples in enumerate(planes):
        names.append(folder / f"plane{number}.raw")
        names[-1].write_bytes(stored(samples, bits, "big"))
    out = folder / "out.jpg"
    command = ["pvrg-jpeg", "-iw", str(WIDTH), "-ih", str(HEIGHT), "-p", str(bits)]
    command += ["-k", str(selection), "-r", str(interval), "-n", "-s", out]
    for name in names:
        command += ["-fw", str(WIDTH), "-fh", str(HEIGHT), name]
    subprocess.run(command, capture_output=True, check=False)
    return without_tables(out.read_bytes())


def segments(stream):
    """The segments before the entropy-coded data, by marker code, and those data."""
    found, at = {}, 2
    while True:
        code, length = stream[at + 1], int.from_bytes(stream[at + 2 : at + 4], "big")
        found.setdefault(code, []).append(stream[at + 4 : at + 2 + length])
        at += 2 + length
        if code == 0xDA:
            return found, stream[at:]


def symbols_of(table):
    """The symbols of a table by (length, code)."""
    code, at, out = 0, 17, {}
    for length in range(1, 17):
        for _ in range(table[length]):
            out[length, code] = table[at]
            code, at = code + 1, at + 1
        code *= 2
    return out


def differences(data, symbols, number):
    """The first `number` differences of the data, whose restart markers are passed over."""
    bits, at = [], 0
    while data[at] != 0xFF or data[at + 1] == 0 or 0xD0 <= data[at + 1] <= 0xD7:
        if data[at] == 0xFF and data[at + 1]:
            bits.append("|")
        else:
            bits.append(f"{data[at]:08b}")
        at += 1 + (data[at] == 0xFF)
    text, at, out = "".join(bits), 0, []
    while len(out) < number:
        length, code = 0, 0
        while (length, code) not in symbols:
            if length == 16 or "|" in text[at : at + 1]:
                at, length, code = text.index("|", at) + 1, 0, 0
            length, code, at = length + 1, 2 * code + int(text[at]), at + 1
        size = symbols[length, code]
        value = int(text[at : at + size] or "0", 2) if size < 16 else 1 << 15
        at += size if size < 16 else 0
        out.append(value - (1 << size) + 1 if 0 < size < 16 and value < 1 << (size - 1) else value)
    return out


def by_its_own_rule(stream, bits):
    """The samples of a grey stream by the rule of pvrg-jpeg."""
    found, data = segments(stream)
    selection, half, samples = found[0xDA][0][-3], 1 << (bits - 1), []
    for at, change in enumerate(differences(data, symbols_of(found[0xC4][0]), WIDTH * HEIGHT)):
        left = samples[at - 1] if at else half
        above = samples[at - WIDTH] if at >= WIDTH else half
        corner = samples[at - WIDTH - 1] if at > WIDTH else half
        rules = (
            left,
            above,
            corner,
            left + above - corner,
            left + ((above - corner) >> 1),
            above + ((left - corner) >> 1),
            (left + above) >> 1,
        )
        guess = rules[selection - 1] if at % WIDTH else above
        samples.append((guess + change) & 0xFFFF)
    return samples


def decoded(jpegraw, stream):
    """What the program writes after its line of text."""
    ran = subprocess.run(jpegraw, input=stream, capture_output=True, check=False)
    return ran.stdout.partition(b"\n")[2]


def main():
    jpegraw = sys.argv[1:2] or [Path(__file__).resolve().parents[2] / "use", "jpegraw"]
    given, by_rule, failed = 0, 0, []
    with tempfile.TemporaryDirectory() as name:
        folder = Path(name)
        for count, bits in ((1, 8), (1, 12), (1, 16), (3, 8)):
            planes = [samples_of(bits, 10 * bits + number) for number in range(count)]
            pixels = stored([it for pixel in zip(*planes) for it in pixel], bits, "little")
            for selection in AS_IN_T81:
                stream = coded(folder, planes, bits, selection, 0)
                if decoded(jpegraw, stream) == pixels:
                    given += 1
                else:
                    failed.append(f"{count} of {bits} bits, selection {selection}")
        for bits in (8, 12, 16):
            samples = samples_of(bits, bits)
            for interval in (0, WIDTH, 5 * WIDTH):
                for selection in range(1, 8):
                    if interval == 0 and selection in AS_IN_T81:
                        continue
                    stream = coded(folder, [samples], bits, selection, interval)
                    if by_its_own_rule(stream, bits) == samples:
                        by_rule += 1
                    else:
                        failed.append(f"{bits} bits, selection {selection}, interval {interval}")
    print(
        f"{given} files give their samples; {by_rule} hold them by pvrg-jpeg's own rule; "
        f"{len(failed)} neither"
    )
    for it in failed:
        print(it)
    sys.exit(1 if failed else 0)


if __name__ == "__main__":
    main()
