"""Reads the suite and pictures, and says whether an answer is right."""
import array
import collections
import json
import re
import sys
from pathlib import Path

Picture = collections.namedtuple('Picture', 'width height depth most samples')
# `is_right`, how (exact, near, other, refused, shown, picture), and how far the samples are from
# those of this suite, where they can be compared.
Outcome = collections.namedtuple('Outcome', 'is_right how distance')

# Samples further apart than this are of other colours: what a difference of 2 in each component
# makes of blue, by the transform of T.871.
NEAR = 6

RAW = {'L8': 1, 'L16': 1, 'RGB24': 3, 'CMYK32': 4}


def cases_of(folder):
    """The cases of a suite's folder."""
    with open(Path(folder) / 'cases.jsonl', encoding='utf-8') as file:
        return [json.loads(line) for line in file]


def samples_of(data, is_deep, is_high_first=True):
    """Samples of one byte, or of two."""
    if not is_deep:
        return list(data)
    samples = array.array('H', data[: len(data) // 2 * 2])
    if is_high_first == (sys.byteorder == 'little'):
        samples.byteswap()
    return list(samples)


def picture_of(data):
    """The picture that a program wrote: PAM, PGM, PPM, or a line WIDTH HEIGHT FORMAT (L8, L16,
    RGB24 or CMYK32) and the pixels, of 16 bits the lower byte first. None where it is not whole."""
    head = re.match(rb'P7\n((?:[A-Z#].*\n)*?)ENDHDR\n', data)
    is_high_first = True
    if head:
        words = dict((line + b' ').split(b' ', 1) for line in head[1].splitlines())
        names = (b'WIDTH', b'HEIGHT', b'DEPTH', b'MAXVAL')
        width, height, depth, most = (int(words[name]) for name in names)
    else:
        head = re.match(rb'P([56])\s+(?:#.*\n)*(\d+)\s+(?:#.*\n)*(\d+)\s+(?:#.*\n)*(\d+)\s', data)
        if head:
            width, height, most = (int(number) for number in head.groups()[1:])
            depth = 1 if head[1] == b'5' else 3
        else:
            head = re.match(rb'(\d+) (\d+) (L8|L16|RGB24|CMYK32)\n', data)
            if not head:
                return None
            width, height, depth = int(head[1]), int(head[2]), RAW[head[3].decode()]
            size = (len(data) - head.end()) // max(width * height * depth, 1)
            most, is_high_first = (255 if size == 1 else 65535), False
    samples = samples_of(data[head.end() :], most > 255, is_high_first)
    if len(samples) < width * height * depth or not samples:
        return None
    return Picture(width, height, depth, most, samples[: width * height * depth])


def with_depth(picture, depth):
    """A grey picture as red, green and blue, or the other way where nothing is lost; or None."""
    samples = picture.samples
    if picture.depth == depth:
        return picture
    if (picture.depth, depth) == (1, 3):
        samples = [value for value in samples for _ in range(3)]
    elif (picture.depth, depth) == (3, 1) and samples[::3] == samples[1::3] == samples[2::3]:
        samples = samples[::3]
    else:
        return None
    return picture._replace(depth=depth, samples=samples)


def forms_of(picture, most):
    """What a picture may stand for, of which the greatest value is another: its samples as they
    are, shifted down from whole bytes, or divided; and with or without the last of two or four,
    which may be a component or how opaque a pixel is."""
    forms, step = [picture], (picture.most + 1) // (most + 1)
    if picture.most > most:
        if all(value % step == 0 for value in picture.samples):
            forms.append(picture._replace(samples=[value // step for value in picture.samples]))
        half = picture.most // 2
        samples = [(value * most + half) // picture.most for value in picture.samples]
        forms.append(picture._replace(samples=samples))
    for form in forms[:] if picture.depth in (2, 4) else ():
        depth = picture.depth - 1
        samples = [value for at, value in enumerate(form.samples) if at % (depth + 1) != depth]
        forms.append(form._replace(depth=depth, samples=samples))
    return forms


def as_inks(low, high):
    """What cyan, magenta, yellow and black between two pictures are in red, green and blue."""
    ends = []
    for picture, sign in ((high, -1), (low, 1)):
        samples, values = picture.samples, []
        for at in range(0, len(samples), 4):
            black = 255 - samples[at + 3]
            values += [(255 - ink) * black // 255 + sign for ink in samples[at : at + 3]]
        ends.append(picture._replace(depth=3, samples=values))
    return ends


def is_between(picture, low, high, tolerance, rows):
    """Whether the first rows of a picture lie between those of two others."""
    it = with_depth(picture, low.depth)
    if it is None or (it.width, it.height) != (low.width, low.height):
        return False
    count = it.width * it.depth * rows
    return all(
        a - tolerance <= value <= b + tolerance
        for a, value, b in zip(low.samples[:count], it.samples, high.samples)
    )


class Judge:
    """Judges answers by the files of a suite's folder."""

    def __init__(self, folder, takes_inks=False):
        self.folder, self.takes_inks = Path(folder), takes_inks

    def file(self, path):
        return picture_of((self.folder / path).read_bytes())

    def is_one_of(self, case, shown):
        """Whether a picture is one of those that are right."""
        for picture in case['pictures']:
            low, high = self.file(picture['low']), self.file(picture['high'])
            ends = [(low, high)]
            if low.depth == 4 and self.takes_inks:
                ends.append(as_inks(low, high))
            rows = case['complete_rows'] or low.height
            for form in forms_of(shown, low.most):
                if any(is_between(form, *end, picture['tolerance'], rows) for end in ends):
                    return True
        return False

    def distance(self, case, shown):
        """How far a picture is from that of the suite, or None where they can't be compared."""
        if not case['expected'].endswith('.pam'):
            return None
        wanted = self.file(case['expected'])
        forms = [with_depth(form, wanted.depth) for form in forms_of(shown, wanted.most)]
        return min(
            (
                max(abs(a - b) for a, b in zip(form.samples, wanted.samples))
                for form in forms
                if form and (form.width, form.height) == (wanted.width, wanted.height)
            ),
            default=None,
        )

    def outcome(self, case, shown):
        """What is to be said of an answer: a Picture, or None for a refusal."""
        if shown is None:
            return Outcome(case['refusal'], 'refused', None)
        distance = self.distance(case, shown)
        if distance == 0:
            return Outcome(True, 'exact', 0)
        if case['any'] or self.is_one_of(case, shown):
            is_near = distance is not None and distance <= NEAR
            return Outcome(True, 'near' if is_near else 'other', distance)
        return Outcome(False, 'picture' if case['pictures'] else 'shown', distance)
