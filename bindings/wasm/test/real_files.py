"""Compares the module in Node with jpegraw on the files of tests/real_files/.

real_files.py JPEGRAW: each file that cjpeg, jpegtran and ImageMagick make there, and the damaged
ones. Status and output have to be the same, byte for byte, and so has the text of a refusal. The
status is 1 where one differs.
"""

import struct
import subprocess
import sys
from pathlib import Path

HERE = Path(__file__).resolve().parent
sys.dont_write_bytecode = True
sys.path.insert(0, str(HERE.parents[2] / 'tests/real_files'))

from damaged import damaged  # noqa: E402
from streams import groups  # noqa: E402


class Module:
    """The module, by a process that answers one stream after the other."""

    def __init__(self):
        words = ['node', HERE / 'answers.mjs']
        self.process = subprocess.Popen(words, stdin=subprocess.PIPE, stdout=subprocess.PIPE)

    def answer(self, stream):
        self.process.stdin.write(struct.pack('<I', len(stream)) + stream)
        self.process.stdin.flush()
        status, length = struct.unpack('<BI', self.process.stdout.read(5))
        return status, self.process.stdout.read(length)


def answer_of(program, stream):
    """The status of a program, and what it writes: the picture, or the line of a refusal."""
    done = subprocess.run([program], input=stream, capture_output=True)
    return done.returncode, done.stderr if done.returncode else done.stdout


def main(jpegraw):
    module, differing = Module(), 0
    for title, files in [*groups(), ('damaged files', damaged())]:
        total = refused = 0
        for name, stream in files:
            ours, theirs = module.answer(stream), answer_of(jpegraw, stream)
            total += 1
            refused += theirs[0] != 0
            if ours != theirs:
                differing += 1
                print(f'{title}: {name}: the answers differ')
        print(f'{title}: {total} files, {refused} refused', flush=True)
    return 1 if differing else 0


if __name__ == '__main__':
    sys.exit(main(*sys.argv[1:]))
