#!/usr/bin/env python3
"""parts.py: compares what tests/parts/answers has with what the model makes of the same case
files, line by line, and says how many lines the model can say."""
import os
import sys

import model
from model import Refused, ceil_div, codes, extend

HERE = os.path.dirname(os.path.abspath(__file__))
PARTS = os.path.join(HERE, '..', 'parts')
RULES = {'H1V1': (1, 1), 'H2V1': (2, 1), 'H1V2': (1, 2), 'H2V2': (2, 2)}
CONVERSIONS = {'None': 'None', 'RGB': 'Rgb', 'YCbCr': 'YCbCr', 'CMYK': 'Cmyk', 'YCCK': 'Ycck'}
PREDICTORS = ('NoPrediction', 'Ra', 'Rb', 'Rc', 'RaRbRc1', 'RaRbRc2', 'RaRbRc3', 'RaRb')

# samples of the case `a general block` that were found elsewhere, by another arithmetic
GENERAL = bytes.fromhex(
    '765C6E534D5D90C6AC7472574E5D92BFC26B5B4C475DA0C6C464504A435CAED1'
    'B66858514459B2CE69403B3B3F5EB7C9231B1C254879CBCC252D292F629ADFD0'
)


class Unknown(Exception):
    """what the model has nothing for"""


# ---- words


def numbers(text):
    out = []
    for word in text.split():
        value, _, count = word.partition('*')
        out += [int(value)] * int(count or 1)
    return out


def data(text):
    out = b''
    for word in text.split():
        digits, _, count = word.partition('*')
        out += bytes.fromhex(digits) * int(count or 1)
    return out


def words(samples):
    out = []
    for value in samples:
        if out and out[-1][0] == value:
            out[-1][1] += 1
        else:
            out.append([value, 1])
    return ' '.join('%02X' % v if n == 1 else '%02X*%d' % (v, n) for v, n in out)


def marker_name(n):
    """Table B.1 of T.81, as Rust's derive writes it"""
    named = {0x01: 'TEM', 0xC4: 'DHT', 0xC8: 'JPG', 0xCC: 'DAC', 0xFE: 'COM'}
    named |= dict(zip(range(0xD8, 0xE0), 'SOI EOI SOS DQT DNL DRI DHP EXP'.split()))
    if n in named:
        return named[n]
    for first, last, name in (
        (0xC0, 0xCF, 'SOF'),
        (0xD0, 0xD7, 'RST'),
        (0xE0, 0xEF, 'APP'),
        (0xF0, 0xFD, 'JPGn'),
    ):
        if first <= n <= last:
            return '%s(%d)' % (name, n - first)
    return 'RES' if 2 <= n <= 0xBF else None


def some(text):
    return 'None' if text is None else 'Some(%s)' % text


def dimensions(pair):
    return 'Dimensions { width: %d, height: %d }' % pair


# ---- bytes and bits


class Case:
    """what the calls of a case work on"""

    def __init__(self, stream, fault):
        self.r, self.fault = model.Bytes(stream), fault
        self.failed, self.text = False, None
        self.dc, self.ac, self.count = {}, {}, 4
        self.frame, self.codes = None, None
        self.block, self.values, self.samples = [0] * 64, [1] * 64, []

    def bits(self):
        """the bits from here on; a read that fails among the 64 read ahead is refused at once"""
        if self.text is None:
            self.text = model.Text(self.r.b, self.r.p)
        t = self.text
        if self.fault and t.end[0] == 'fault' and 8 * len(t.data) - t.k < 64:
            raise Refused('Io')
        return t

    def table(self, text):
        name, destination = text.split()
        return (self.dc if name == 'dc' else self.ac)[int(destination)]

    def refusal(self, error):
        if error.kind != 'Io':
            kind = 'invalid JPEG format'
            if error.kind != 'Format':
                kind = 'unsupported JPEG feature: ' + error.kind[len('Unsupported(') : -1]
            return 'refused: ' + kind
        self.failed = self.fault
        return 'refused: ' + ('wrong call' if self.fault else 'the file ends too soon')


def read_bytes(case, verb, text):
    r = case.r
    if verb == 'u8':
        return str(r.u8())
    if verb == 'u16':
        return str(r.u16())
    if verb == 'length':
        return str(r.length() - 2)
    if verb == 'skip':
        r.take(int(text))
        return '()'
    if verb == 'take':
        return str(list(r.take(int(text))))
    if verb == 'marker':
        return marker_name(r.marker())
    if verb == 'failed':
        return 'failed: ' + str(case.failed).lower()
    raise Unknown(verb)


def short_value(t, table):
    """a value that takes at most 8 bits with its code, and the run before it"""
    start = t.k
    symbol, length = t.symbol(table)
    run, size = symbol >> 4, symbol & 15
    if size == 0 or length + size > 8:
        t.k = start
        return None
    return '(%d, %d)' % (extend(t.bits(size), size), run)


def read_bits(case, verb, text):
    if verb == 'bits':
        return str(case.bits().bits(int(text)))
    if verb == 'signed':
        return str(extend(case.bits().bits(int(text)), int(text)))
    if verb == 'symbol':
        return str(case.bits().symbol(case.table(text))[0])
    if verb == 'value':
        return some(short_value(case.bits(), case.table(text)))
    if verb == 'reset':
        t = case.bits()
        if t.end[0] != 'marker' or len(t.data) > 8:
            raise Unknown('a reset before a marker is reached')
        t.data, t.k = [], 0
        return ''
    if verb == 'stop':
        case.text = model.Text(case.r.b, case.r.p, stops=True)
        return ''
    if verb == 'end':
        marker, case.r.p = case.bits().finish()
        case.text = None
        return some(marker and marker_name(marker))
    raise Unknown(verb)


# ---- tables and blocks


def tables_said(case):
    return 'tables' + ''.join(
        ' %s %d' % (name, i)
        for name, tables in (('dc', case.dc), ('ac', case.ac))
        for i in sorted(tables)
    )


def define(case, text):
    name, rest = text.split(' ', 1)
    counts, symbols = (data(part) for part in rest.split(':'))
    case.codes = codes(counts, symbols)
    if case.codes is None:
        raise model.fmt()
    (case.dc if name == 'dc' else case.ac)[0] = case.codes
    return ''


def fill_defaults(case, text):
    for tables, made, named in zip((case.dc, case.ac), model.default_tables(), text.split(':')):
        for i in numbers(named):
            if i < 2:
                tables.setdefault(i, made[i])
    return tables_said(case)


def read_block(case, text):
    name, ss, se, al = text.split()
    zigzag = [case.block[i] for i in model.ZIGZAG]
    read = model.ac_first if name == 'first' else model.ac_refine
    if int(ss) == 0:
        raise Unknown('a pass of DC')
    read(case.bits(), case.codes, zigzag, int(ss), int(se), int(al), 0)
    for z, value in enumerate(zigzag):
        case.block[model.ZIGZAG[z]] = value
    return 'block' + ''.join(' %d=%d' % (i, v) for i, v in enumerate(case.block) if v)


def marker_code(case, text):
    name = marker_name(int(text, 16))
    if name is None:
        return 'no marker'
    symbol = name.replace('n(', '').replace('(', '').replace(')', '')
    has_length = not (name.startswith('RST') or name in ('SOI', 'EOI', 'TEM'))
    return '%s, %s, %s length' % (name, symbol, 'a' if has_length else 'no')


def read_tables(case, verb, text):
    if verb == 'table':
        return define(case, text)
    if verb == 'destinations':
        case.count = int(text)
        return ''
    if verb == 'defaults':
        return fill_defaults(case, text)
    if verb == 'block':
        return read_block(case, text)
    if verb == 'code':
        return marker_code(case, text)
    if verb == 'dht':
        case.dc, case.ac = {}, {}
        for b, table in model.parse_dht(case.r, 1 if text == 'baseline' else 3):
            (case.ac if b >> 4 else case.dc)[b & 15] = table
        return tables_said(case)
    raise Unknown(verb)


# ---- segments


def frame_said(f, scale):
    process = {'seq': 'DctSequential', 'prog': 'DctProgressive', 'lossless': 'Lossless'}
    parts = [
        'Component { identifier: %d, horizontal_sampling_factor: %d, vertical_sampling_factor: %d, '
        'quantization_table_index: %d, dct_scale: %d, size: %s, block_size: %s }'
        % (
            (c.id, c.h, c.v, c.tq, scale, dimensions(size))
            + (dimensions((f.mcus[0] * c.h, f.mcus[1] * c.v)),)
        )
        for c, size in zip(f.comps, f.sizes(scale))
    ]
    said = 'baseline %s, differential %s, %s, %s, precision %d, image %s, output %s, MCUs %s, [%s]'
    return said % (
        str(f.baseline).lower(),
        str(f.differential).lower(),
        process[f.process],
        'Arithmetic' if f.arithmetic else 'Huffman',
        f.precision,
        dimensions((f.w, f.h)),
        dimensions(f.output(scale)),
        dimensions(f.mcus),
        ', '.join(parts),
    )


def parse_frame(case, code):
    if not (marker_name(int(code, 16)) or '').startswith('SOF'):
        raise model.fmt()
    return model.parse_sof(case.r, int(code, 16) - 0xC0)


def scan_said(f, s):
    return (
        'ScanInfo { component_indices: %s, dc_table_indices: %s, ac_table_indices: %s, '
        'spectral_selection: %d..%d, predictor_selection: %s, '
        'successive_approximation_high: %d, successive_approximation_low: %d, '
        'point_transform: %d }'
        % (
            (s.comps, s.dc, s.ac, s.ss, s.se + 1)
            + (PREDICTORS[s.ss if f.process == 'lossless' else 0], s.ah, s.al, s.al)
        )
    )


def application(case, code):
    if not 0xE0 <= int(code, 16) <= 0xEF:
        raise model.fmt()
    start, number = case.r.p, int(code, 16) - 0xE0
    st = {'jfif': False, 'avi': False, 'adobe': None, 'exif': None, 'xmp': None, 'icc': []}
    model.parse_app(case.r, number, st)
    if st['icc']:
        said = 'Icc(IccChunk { num_markers: %d, seq_no: %d, bytes: %s })'
        number, count, part = st['icc'][0]
        return some(said % (count, number, list(part)))
    if st['adobe'] is not None:
        return some('Adobe(%s)' % ('Unknown', 'YCbCr', 'YCCK')[st['adobe']])
    for name in ('exif', 'xmp'):
        if st[name] is not None:
            return some('%s(%s)' % (name.capitalize(), list(st[name])))
    body = case.r.b[start + 2 : case.r.p]
    if number == 13 and body.startswith(b'Photoshop 3.0\0'):
        return some('Psir(%s)' % list(body[14:]))
    return some('Jfif' if st['jfif'] else 'Avi1' if st['avi'] else None)


def read_segments(case, verb, text):
    if verb == 'sof':
        case.frame = parse_frame(case, text)
        return frame_said(case.frame, 8)
    if verb == 'scaled':
        code, _, last = text.split()
        return frame_said(parse_frame(case, code), int(last))
    if verb == 'sos':
        return scan_said(case.frame, model.parse_sos(case.r, case.frame))
    if verb == 'dqt':
        tables = model.parse_dqt(case.r)
        return '[%s]' % ', '.join(some(tables.get(i)) for i in range(4))
    if verb == 'dri':
        if case.r.length() != 4:
            raise model.fmt()
        return str(case.r.u16())
    if verb == 'com':
        return str(list(case.r.take(case.r.length() - 2)))
    if verb == 'app':
        return application(case, text)
    raise Unknown(verb)


# ---- blocks and planes


def changed(block, text):
    block = list(block)
    for word in text:
        index, value = word.split('=')
        block[int(index)] = int(value)
    return block


def idct(case, text):
    scale, stride, room, *changes = text.split()
    scale, stride, output = int(scale), int(stride), [7] * int(room)
    samples = model.IDCT[scale](changed(case.block, changes), case.values)
    for y in range(scale):
        output[y * stride : y * stride + scale] = samples[y * scale : (y + 1) * scale]
    return words(output)


def row(case, text):
    scale, before, after, *changes = text.split()
    one = model.IDCT[int(scale)](case.block, case.values)
    other = model.IDCT[int(scale)](changed(case.block, changes), case.values)
    blocks = [one] * int(before) + [other] + [one] * int(after)
    for y in range(int(scale)):
        for block in blocks:
            case.samples += block[y * int(scale) : (y + 1) * int(scale)]
    return ''


def chosen_scale(text):
    f = model.Frame()
    f.w, f.h, *want = numbers(text)
    f.process = 'seq'
    return 'scale %d' % model.pick_scale(f, want)


def make_blocks(case, verb, text):
    if verb == 'coefficients':
        case.block = numbers(text)
        return ''
    if verb == 'values':
        case.values = numbers(text)
        return ''
    if verb == 'zigzag':
        return str([case.values[model.ZIGZAG.index(i)] for i in range(64)])
    if verb == 'idct':
        return idct(case, text)
    if verb == 'row':
        return row(case, text)
    if verb == 'plane':
        return words(case.samples)
    if verb == 'crop':
        stride, width, height = numbers(text)
        lines = [case.samples[y * stride : y * stride + width] for y in range(height)]
        return words(sum(lines, []))
    if verb == 'size':
        return chosen_scale(text)
    raise Unknown(verb)


# ---- pictures


def upsample(text):
    rule, rest = text.split(' ', 1)
    text, samples = rest.split(':')
    width, height, stride, line, count, room = numbers(text)
    samples = data(samples)
    name, ratio = (rule, RULES[rule]) if rule in RULES else ('Generic', rule.split('x'))
    ratio = [int(n) for n in ratio]
    output = [7] * room
    for x in range(count):
        output[x] = model.upsampled(
            name, lambda i, j: samples[j * stride + i], width, height, ratio, x, line
        )
    return words(output)


def convert_chunks(text):
    room, *planes = text.split(':')
    output, count = [7] * int(room), int(room) // 3 // 8 * 8
    for x, pixel in enumerate(list(zip(*[data(p) for p in planes]))[:count]):
        output[3 * x : 3 * x + 3] = model.ycc(*pixel)
    return '%d pixels, %s' % (count, words(output))


def whole_picture(case, code, transform, planes):
    f = parse_frame(case, code)
    conversion = model.conversion(len(f.comps), transform)

    def reader(plane, stride):
        return lambda x, y: plane[y * stride + x]

    planes = [reader(data(p), f.mcus[0] * c.h * 8) for p, c in zip(planes, f.comps)]
    return f, model.picture(f, planes, 8, conversion)


def layout(text):
    first, second, third, width, height, rows = numbers(text)
    if not first == second == third or width > 2 or height > rows:
        return 'None'
    return some('JointShape { count: 3, stride: 2, lines: 1, rows: %d }' % rows)


def joint_plane(text):
    layout_words, slot, samples = text.split(':')
    samples, rows, strip = data(samples), numbers(layout_words)[5], 2
    starts = [(row * 3 + int(slot)) * strip for row in range(rows)]
    return words(b''.join(samples[start : start + strip] for start in starts))


def worker(text):
    samples = [model.idct1([first], [4])[0] for part in text.split(':') for first in numbers(part)]
    if ':' in text:
        return words(samples)
    return '[], %s, []' % (samples + [0] * 4)


def make_pictures(case, verb, text):
    if verb == 'upsample':
        return upsample(text)
    if verb == 'ycbcr':
        return convert_chunks(text)
    if verb == 'colours':
        count, name = text.split()
        return CONVERSIONS[model.conversion(int(count), name)]
    if verb == 'picture':
        head, *planes = text.split(':')
        return words(whole_picture(case, *head.split(), planes)[1])
    if verb == 'line':
        head, *planes = text.split(':')
        code, transform, line = head.split()
        f, picture = whole_picture(case, code, transform, planes)
        size = len(f.comps) * f.w
        return words(picture[int(line) * size : (int(line) + 1) * size])
    if verb == 'shape':
        return layout(text)
    if verb == 'joint':
        return joint_plane(text)
    if verb == 'worker':
        return worker(text)
    raise Unknown(verb)


# ---- lossless


def predicted(ra, rb, rc, selection, start, x, y):
    if y == 0:
        return ra if x else start
    return model.predict(ra, rb, rc, selection) if x else rb


def coded(text):
    """how a scan is coded, and its parts"""
    head, *parts = text.split(':')
    return numbers(head), [numbers(part) for part in parts]


def read_mcu(case, t, coding, parts, planes, mcu, first):
    """the samples of an MCU of an interval whose first row of MCUs is this one"""
    _, _, precision, selection, point, _ = coding
    for (across, down, _, _), plane in zip(parts, planes):
        for y in range(mcu[1] * down, (mcu[1] + 1) * down):
            for x in range(mcu[0] * across, (mcu[0] + 1) * across):
                near = [plane.get(at, 0) for at in ((x - 1, y), (x, y - 1), (x - 1, y - 1))]
                start = 1 << (precision - point - 1)
                size = t.symbol(case.codes)[0]
                if size > 16:
                    raise model.fmt(True)
                difference = extend(t.bits(size), size) if size else 0
                sample = predicted(*near, selection, start, x, y - first * down) + difference
                plane[x, y] = sample & 0xFFFF


def own_samples(coding, parts, planes):
    """the samples of each part that are there"""
    return [
        [
            plane[x, y] << coding[4] & 0xFFFF
            for y in range(height)
            for x in range(width)
            if (x, y) in plane
        ]
        for (_, _, width, height), plane in zip(parts, planes)
    ]


def rows_of_interval(coding):
    wide, high, interval = coding[0], coding[1], coding[5]
    return interval // wide if 0 < interval < wide * high else high


def lossless(case, text):
    coding, parts = coded(text)
    wide, high, interval = coding[0], coding[1], coding[5]
    if 0 < interval < wide * high and interval % wide:
        raise model.fmt(True)
    planes = [{} for _ in parts]

    def unit(t, mcu, state):
        read_mcu(case, t, coding, parts, planes, mcu, state['first'])

    mcus = [(x, y) for y in range(high) for x in range(wide)]
    rows = iter(range(0, high, rows_of_interval(coding)))
    marker = model.run_scan(case.r, mcus, interval, lambda: {'first': next(rows)}, unit)
    return '%s, %s' % (own_samples(coding, parts, planes), some(marker and marker_name(marker)))


def rows(case, text):
    coding, parts = coded(text)
    planes, said = [{} for _ in parts], '()'
    try:
        for y in range(rows_of_interval(coding)):
            more = [dict(plane) for plane in planes]
            for x in range(coding[0]):
                read_mcu(case, case.bits(), coding, parts, more, (x, y), 0)
            planes = more
    except Refused as error:
        said = case.refusal(error)
    return '%s, %s' % (own_samples(coding, parts, planes), said)


def read_lossless(case, verb, text):
    if verb == 'lossless':
        return lossless(case, text)
    if verb == 'rows':
        return rows(case, text)
    if verb == 'predict':
        ra, rb, rc, selection, point, precision, x, y = numbers(text)
        return str(predicted(ra, rb, rc, selection, 1 << (precision - point - 1), x, y))
    raise Unknown(verb)


# ---- case files

CALLS = (
    read_bytes,
    read_bits,
    read_tables,
    read_segments,
    make_blocks,
    make_pictures,
    read_lossless,
)


def answer(case, line):
    verb, _, text = line.partition(' ')
    for call in CALLS:
        try:
            return call(case, verb, text)
        except Unknown as e:
            if str(e) != verb:
                raise
    raise Unknown(verb)


def line_of(paragraph):
    head, *lines = paragraph.split('\n')
    verb, _, text = lines[0].partition(' ')
    stream = b''
    if verb in ('bytes', 'fails', 'interrupted'):
        lines = lines[1:]
    if verb == 'bytes':
        stream = data(text)
    elif verb in ('fails', 'interrupted'):
        call, piece, text = text.split(' ', 2)
        stream = data(text)
        if verb == 'fails':
            stream = stream[: int(call) * int(piece)]
    case = Case(stream, verb == 'fails')
    said = head[len('case ') :]
    for line in lines:
        try:
            text = answer(case, line)
        except Refused as error:
            text = case.refusal(error)
        if text:
            said += ': ' + text
    return said


def is_general(line):
    """whether a line has the samples of the general block, each within one"""
    name, _, text = line.partition(': ')
    return name == 'a general block' and all(abs(a - b) <= 1 for a, b in zip(data(text), GENERAL))


def main():
    paragraphs = []
    for name in ('bits', 'segments', 'pixels', 'lossless'):
        with open(os.path.join(PARTS, 'data', f'{name}.case')) as cases:
            paragraphs += cases.read().rstrip().split('\n\n')
    with open(sys.argv[1] if len(sys.argv) > 1 else os.path.join(PARTS, 'answers')) as output:
        lines = output.read().splitlines()
    said = different = 0
    for paragraph, line in zip(paragraphs, lines):
        try:
            wanted = line_of(paragraph)
        except Unknown:
            continue
        said += 1
        if line != wanted:
            different += 1
            print('model: %s\nthere: %s' % (wanted, line))
    print('%d lines, %d by the model, %d different' % (len(lines), said, different))
    if not any(is_general(line) for line in lines):
        print('the general block is not within one of the samples that were found elsewhere')
        different += 1
    return different > 0 or len(lines) != len(paragraphs)


if __name__ == '__main__':
    sys.exit(main())
