#!/usr/bin/env python3
"""Checks the cases of tests/decoder.

cases.py [--large] [FILE..]    these files, or all that its `args` names

What each call of a case must answer is computed by the model, from the case file alone, and
compared with the case's line in `answers`. Where the model leaves open which fault is named, and
which words say it, any of these is right: of `partial` it leaves the words open alone. The names of
a file's cases must differ, and so must the texts of the refusals in texts.case. Six pictures of
2^20 samples, which take 80 s, are left out without --large.
"""
import os
import sys

import model
from model import ceil_div

HERE = os.path.dirname(os.path.abspath(__file__))
FOLDER = os.path.join(os.path.dirname(HERE), 'decoder')

# The decoder's words.
FORMAT, ENDED = 'refused: invalid JPEG format', 'refused: the file ends too soon'
OVER, FAILED = 'refused: image was already decoded', 'refused: decoder has failed'
SHORT = 'refused: pixels are shorter than the picture'
PROCESSES = {'seq': 'DctSequential', 'prog': 'DctProgressive', 'lossless': 'Lossless'}
NO_LIMIT = 2**64 - 1
# The calls that have no answer.
SETTERS = 'transform', 'limit', 'luma'


class Case:
    """A case: its name, its stream, and its calls, each a list of words."""

    def __init__(self, name):
        self.name, self.stream, self.calls = name, b'', []


def bytes_of(words):
    """The bytes of words of hex digits, each with how often it stands after a star."""
    pieces = (word.partition('*') for word in words.split())
    return b''.join(bytes.fromhex(digits) * int(count or 1) for digits, _, count in pieces)


def words_of(data, size=1):
    """Bytes as words of `size` bytes, each with a space before it."""
    runs = []
    for at in range(0, len(data), size):
        piece = data[at : at + size]
        if runs and runs[-1][0] == piece:
            runs[-1][1] += 1
        else:
            runs.append([piece, 1])
    return ''.join(
        ' ' + piece.hex().upper() + ('*%d' % count if count > 1 else '') for piece, count in runs
    )


def cases_in(lines):
    """The cases of the lines of a file."""
    cases = []
    for line in lines:
        word, _, rest = line.rstrip('\n').partition(' ')
        if word == 'case':
            cases.append(Case(rest))
        elif word == 'stream':
            cases[-1].stream += bytes_of(rest)
        elif word not in ('', '#'):
            cases[-1].calls.append([word] + rest.split())
    return cases


def cases_of(path):
    """The cases of a file."""
    with open(path, encoding='utf-8') as file:
        return cases_in(file)


def orientation_of(exif):
    """The orientation that Exif data say (TIFF 6.0, section 2), or None."""
    order = {b'II': 'little', b'MM': 'big'}.get(exif[:2])

    def number(at, size):
        if at + size > len(exif):
            raise IndexError
        return int.from_bytes(exif[at : at + size], order)

    if order is None:
        return None
    try:
        if number(2, 2) != 42:
            return None
        directory = number(4, 4)
        for entry in range(number(directory, 2)):
            at = directory + 2 + 12 * entry
            if at + 12 > len(exif):
                return None
            size = {3: 2, 9: 4}.get(number(at + 2, 2))
            if size and (number(at, 2), number(at + 4, 4)) == (0x0112, 1):
                if 1 <= number(at + 8, size) <= 8:
                    return number(at + 8, size)
    except IndexError:
        pass
    return None


def decoding_bytes(frame, scale, luma=False):
    """Coefficients, planes, picture, the most that is taken at a time, and that by rows."""
    width, height = frame.output(scale)
    picture = width * height * len(frame.comps) * (1 if frame.precision <= 8 else 2)
    coefficients = planes = strips = 0
    for component in frame.comps:
        across, down = frame.mcus[0] * component.h, frame.mcus[1] * component.v
        if frame.process == 'lossless':
            planes += (
                2
                * ceil_div(frame.w * component.h, frame.hmax)
                * ceil_div(frame.h * component.v, frame.vmax)
            )
        else:
            planes += across * scale * down * scale
            strips += across * scale * component.v * scale
            coefficients += 128 * across * (down if frame.process == 'prog' else component.v)
    becomes_picture = len(frame.comps) == 1 and frame.process != 'lossless'
    end = planes + (0 if becomes_picture else picture)
    rows = coefficients + planes
    if frame.process == 'seq' and not luma:
        # (the samples of two rows of MCUs, the lines of one, and two lines more)
        rows = coefficients + 2 * strips + (frame.vmax * scale + 2) * len(frame.comps) * width
    return coefficients, planes, picture, max(coefficients + planes, end), rows


def refusal_texts(kind, in_scan):
    """The right answers where the model refuses."""
    if in_scan:
        return [FORMAT, ENDED]
    named = kind[len('Unsupported(') : -1]
    usual = {'Format': FORMAT, 'Io': ENDED}
    return [usual.get(kind, 'refused: unsupported JPEG feature: ' + named)]


def fault_text(kind):
    """The words for the fault of a picture that is shown."""
    return refusal_texts(kind, False)[0][len('refused: ') :] if kind else 'none'


class Decoder:
    """A decoder as the model sees it: what its calls answer, each a list of right answers. None
    stands for any answer."""

    def __init__(self, stream):
        self.stream, self.settings = stream, model.Settings(limit=NO_LIMIT)
        self.stage, self.frame, self.said = 'fresh', None, {'exif': None, 'xmp': None, 'icc': []}
        self.place, self.trace, self.meaning = 0, None, None
        self.gave_rows, self.fed = False, 0

    def mean(self, read=model.meaning):
        """Runs the model by the settings of now."""
        self.trace = {}
        self.meaning = read(self.stream, self.settings, self.trace)

    def refuse(self):
        """Fails as the model says."""
        self.stage, self.said = 'failed', self.trace['state']
        self.frame = self.trace.get('frame')
        _, kind, in_scan = self.meaning
        self.place = len(self.stream) if kind == 'Io' and not in_scan else None
        return refusal_texts(kind, in_scan)

    def read_header(self):
        """Reads the header where that is to do, and returns a refusal's texts or None."""
        if self.stage == 'failed':
            return [FAILED]
        if self.stage == 'fresh':
            self.mean()
            if 'header' not in self.trace:
                return self.refuse()
            self.stage, self.frame = 'header', self.trace['frame']
            self.place, self.said = self.trace['header']
        return None

    def scale_of_now(self):
        return model.pick_scale(self.frame, self.settings.scale)

    def size(self):
        return '%d %d %s' % model.info(self.frame, self.scale_of_now(), self.settings)

    def picture(self, read=model.meaning):
        """Decodes, and returns a refusal's texts or the picture's bytes, or what else is read."""
        refusal = [OVER] if self.stage == 'finished' else self.read_header()
        if refusal:
            return refusal
        self.mean(read)
        if self.meaning[0] == 'err':
            return self.refuse()
        self.stage, self.said, self.place = 'finished', self.trace['state'], self.trace['end']
        return self.meaning[-1]

    def partial(self):
        refusal = [OVER] if self.stage == 'finished' else self.read_header()
        if refusal:
            return refusal
        self.trace = {}
        got = model.shown(self.stream, self.settings, self.trace)
        # (how far it reads is left open)
        self.said, self.place = self.trace['state'], None
        self.stage = 'failed' if got[0] == 'err' else 'finished'
        if got[0] == 'err':
            return refusal_texts(got[1], False)
        said = self.size(), self.words(got[4]), got[6], fault_text(got[5])
        return ['%s%s, rows %d, fault %s' % said]

    def feed(self, count):
        """What a decoder shows that was fed so many bytes more."""
        self.fed += int(count)
        return Decoder(self.stream[: self.fed]).partial()

    def words(self, picture):
        width, height = model.info(self.frame, self.scale_of_now())[:2]
        return words_of(picture, len(picture) // (width * height))

    def transform(self, name):
        self.settings.transform = name

    def limit(self, samples):
        self.settings.limit = int(samples)

    def luma(self):
        self.settings.luma = True

    def header(self):
        return self.read_header() or ['ok']

    def scale(self, width, height):
        refusal = self.read_header()
        if refusal:
            return refusal
        self.settings.scale = int(width), int(height)
        return [self.size().rpartition(' ')[0]]

    def at(self, part):
        refusal = self.read_header()
        if refusal:
            return refusal
        self.settings.scale = {'1/8': 1, '1/4': 2, '1/2': 4, '1': 8}[part]
        return [self.size().rpartition(' ')[0]]

    def decode(self):
        picture = self.picture()
        return picture if isinstance(picture, list) else [self.size() + self.words(picture)]

    def planes(self):
        planes = self.picture(model.planes_of)
        if isinstance(planes, list):
            return planes
        said = (
            '%d %d%s' % (width, height, words_of(samples, len(samples) // (width * height)))
            for width, height, samples in planes
        )
        return [', '.join(said)]

    def rows(self):
        if self.gave_rows:
            return ['none']
        self.gave_rows = True
        refusal = [OVER] if self.stage == 'finished' else self.read_header()
        if refusal:
            return [text + ', lines 0' for text in refusal]
        self.mean(model.lines_of)
        if self.meaning[0] != 'err':
            self.stage, self.said, self.place = 'finished', self.trace['state'], self.trace['end']
            return [self.size() + self.words(self.meaning[-1])]
        *self.meaning, given = self.meaning
        size = len(self.frame.comps)
        count = len(given) // size // model.info(self.frame, self.scale_of_now())[0]
        said = ', lines %d%s' % (count, words_of(given, size))
        return [text + said for text in self.refuse()]

    def refusal(self):
        return [text + '..' if text == FORMAT else text for text in self.decode()]

    def into(self, size):
        before = bytes([7]) * int(size)
        picture = [OVER] if self.stage == 'finished' else self.read_header()
        if picture is None and len(before) < decoding_bytes(self.frame, self.scale_of_now())[2]:
            picture = [SHORT]
        if picture is None:
            picture = self.picture()
        if isinstance(picture, list):
            return [text + ', memory' + words_of(before) for text in picture]
        rest = words_of(before[len(picture) :])
        return ['%d bytes, memory%s%s' % (len(picture), self.words(picture), rest)]

    def info(self):
        if self.frame is None:
            return ['none, precision none, bytes none']
        taken = 'none'
        if self.stage in ('header', 'finished'):
            sizes = decoding_bytes(self.frame, self.scale_of_now(), self.settings.luma)
            taken = ' '.join(map(str, sizes))
        said = self.size(), PROCESSES[self.frame.process], self.frame.precision, taken
        return ['%s %s, precision %d, bytes %s' % said]

    def data(self, data):
        return ['none' if data is None else '%d bytes%s' % (len(data), words_of(data))]

    def exif(self):
        return self.data(self.said['exif'])

    def xmp(self):
        return self.data(self.said['xmp'])

    def icc(self):
        return self.data(model.icc_profile(self.said['icc']))

    def orientation(self):
        orientation = orientation_of(self.said['exif'] or b'')
        return ['none' if orientation is None else str(orientation)]

    def stream_transform(self):
        """The transform by the identifiers and the segments, which a picture of one component and a
        lossless one don't have."""
        if self.frame is None:
            return ['none']
        if len(self.frame.comps) == 1 or self.frame.process == 'lossless':
            return ['None']
        return [model.choose(self.frame, self.said, model.Settings())]

    def rest(self):
        return None if self.place is None else [str(len(self.stream) - self.place)]

    def cuts(self):
        parts, last = [], None
        for length in range(len(self.stream)):
            answers = Decoder(self.stream[:length]).decode()
            if last is None or last not in answers:
                last = answers[0]
                parts.append('from %d bytes %s' % (length, last))
        return ['; '.join(parts)]


def is_large(case):
    """Whether a case decodes the pictures of 1040 by 1016 pixels that take long."""
    return b'\x03\xf8\x04\x10' in case.stream


def is_right(answer, answers):
    """Whether an answer is one of the right ones, of which one that ends in .. is a beginning."""
    return answers is None or any(
        answer.startswith(text[:-2] + ': ') if text.endswith('..') else answer == text
        for text in answers
    )


def fault_of(case, line):
    """What is wrong with a case's line, or None."""
    name, _, rest = line[: len(case.name)], line[len(case.name)], line[len(case.name) + 2 :]
    if name != case.name:
        return 'the line is of another case'
    decoder, given = Decoder(case.stream), rest.split('; ')
    if case.calls[0][0] == 'cuts':
        given = [rest]
    for call in case.calls:
        answers = getattr(decoder, call[0])(*call[1:])
        if call[0] in SETTERS:
            continue
        answer = given.pop(0) if given else 'no answer'
        if not is_right(answer, answers):
            return '%s: %.100s, by the model %.100s' % (' '.join(call), answer, answers)
    return 'too many answers' if given else None


def repeated(texts):
    """Those of the texts that stand twice."""
    return sorted({text for text in texts if texts.count(text) > 1})


def lines_by_file(files):
    """Each of the files with its cases and their lines of answers."""
    with open(os.path.join(FOLDER, 'answers'), encoding='utf-8') as file:
        lines = file.read().splitlines()
    with open(os.path.join(FOLDER, 'args'), encoding='utf-8') as file:
        names = file.read().split()
    for name in names:
        cases = cases_of(os.path.join(FOLDER, 'data', name))
        own, lines = lines[: len(cases)], lines[len(cases) :]
        if not files or name in files:
            yield name, cases, own
    if lines:
        yield 'answers', [], lines


def faults_of(name, cases, lines, with_large):
    """What is wrong with a file's cases and their lines."""
    faults = ['%s stands twice' % text for text in repeated([case.name for case in cases])]
    if name == 'texts.case':
        texts = [line.rpartition('; ')[2].partition('refused: ')[2] for line in lines]
        faults += ['%s is the text of two' % text for text in repeated(texts)]
    if len(cases) != len(lines):
        faults.append('%d cases, %d lines' % (len(cases), len(lines)))
    for case, line in zip(cases, lines):
        fault = None if is_large(case) and not with_large else fault_of(case, line)
        if fault:
            faults.append('%s: %s' % (case.name, fault))
    return faults


def main():
    with_large = '--large' in sys.argv
    failed = False
    for name, cases, lines in lines_by_file([word for word in sys.argv[1:] if word != '--large']):
        faults = faults_of(name, cases, lines, with_large)
        left_out = 0 if with_large else sum(is_large(case) for case in cases)
        note = ', %d of them left out' % left_out if left_out else ''
        print('%s: %d cases%s, %d faults' % (name, len(cases), note, len(faults)))
        for fault in faults:
            print('    ' + fault)
        failed = failed or bool(faults)
    return failed


if __name__ == '__main__':
    sys.exit(main())
