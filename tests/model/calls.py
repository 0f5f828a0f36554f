#!/usr/bin/env python3
"""Computes what the calls of the C library answer in the cases of bindings/c/test/cases.

calls.py            writes the answers of each case file
calls.py --check    compares them

Headers, samples and faults are the model's, and metadata that are joined are those of metadata.py.
What the structs tell of them is said here, by the comments of bindings/c/zaxbriar.h, T.81, T.871
(JFIF), and TIFF for the orientation.
"""
import glob
import os
import sys
from types import SimpleNamespace

import model
from cases import cases_of, decoding_bytes, orientation_of
from metadata import exif_in, extended_xmp_in, iptc_in, thumbnail_in, xmp_in

HERE = os.path.dirname(os.path.abspath(__file__))
CASES = os.path.join(os.path.dirname(os.path.dirname(HERE)), 'bindings', 'c', 'test', 'cases')

OK, MALFORMED, UNSUPPORTED, TRUNCATED = range(4)
NO_ROOM, BAD_ARGUMENT, NO_DATA, TOO_LARGE, PARTIAL, TOO_MANY_PASSES = range(5, 11)
NAMES = (
    'OK MALFORMED UNSUPPORTED TRUNCATED NO_MEMORY NO_ROOM BAD_ARGUMENT NO_DATA TOO_LARGE PARTIAL '
    'TOO_MANY_PASSES'
).split()
GREY, RGB, RGBA, BGRA, BGR, XRGB, ABGR, RGB565, GREY16, RGB16 = range(1, 11)
PIXEL_BYTES = {
    **{GREY: 1, RGB: 3, RGBA: 4, BGRA: 4, BGR: 3},
    **{XRGB: 4, ABGR: 4, RGB565: 2, GREY16: 2, RGB16: 6},
}
TRANSFORMS = [None, 'None', 'RGB', 'YCbCr', 'CMYK', 'YCCK']
PROCESSES = {'seq': 1, 'prog': 2, 'lossless': 3}
FEATURES = [
    None,
    'Hierarchical',
    'ArithmeticEntropyCoding',
    'SamplePrecision',
    'ComponentCount',
    'DNL',
    None,
    'NonIntegerSubsamplingRatio',
    'ColorTransform',
]
GAMUTS = {'JcsBgYcc': 6, 'JcsBgRgb': 7}
MEMBERS = (
    'size row_bytes decoding_bytes stream_bytes width height whole_rows pixel_bytes layout '
    'components precision sample_bytes process orientation format feature feature_argument fault '
    'density_unit horizontal_density vertical_density transform planes_size text'
).split()
JOINED = {1: exif_in, 2: xmp_in, 4: extended_xmp_in, 5: iptc_in, 6: thumbnail_in}
BEFORE = 7
# Where the first row of the stored picture is to be seen, and its first column, by the orientation
# (Exif 2.3, 4.6.4, tag 274).
SIDES = {
    **{1: ('top', 'left'), 2: ('top', 'right'), 3: ('bottom', 'right'), 4: ('bottom', 'left')},
    **{5: ('left', 'top'), 6: ('right', 'top'), 7: ('right', 'bottom'), 8: ('left', 'bottom')},
}


class Refusal(Exception):
    """A value that a call returns, and what the struct tells beside the picture."""

    def __init__(self, code, **told):
        self.code, self.told = code, told


# ---- faults


def feature_of(kind):
    """The number of a feature that the model names, and what goes with it."""
    name, _, argument = kind[len('Unsupported(') : -1].partition('(')
    argument = argument.rstrip(')')
    return FEATURES.index(name), GAMUTS.get(argument) or int(argument or 0)


def fault_of(kind):
    """The value that stands for a fault of the model, and the members that name it."""
    if kind == 'Format':
        return MALFORMED, {}
    if kind == 'Io':
        return TRUNCATED, {}
    feature, argument = feature_of(kind)
    return UNSUPPORTED, {'feature': feature, 'feature_argument': argument}


def with_passes(code, trace):
    """The number of a fault: of a scan that codes more blocks than the limit leaves its own."""
    return TOO_MANY_PASSES if code == MALFORMED and trace.get('exceeded') else code


def refusal(kind):
    code, named = fault_of(kind)
    return Refusal(code, **named)


def settled(meaning):
    """A meaning of which the model doesn't leave open what its fault is."""
    if meaning[0] == 'err' and meaning[2]:
        raise SystemExit('a fault in the data of a scan has two names: change the case')
    return meaning


# ---- options


class Options:
    """zaxbriar_options, which words NAME=NUMBER set."""

    def __init__(self, words):
        self.max_samples = self.stride = self.min_width = self.min_height = self.transform = 0
        self.layout = self.scale = self.bottom_up = self.max_bytes = self.max_passes = 0
        self.upright = self.luma = 0
        self.crop_left = self.crop_top = self.crop_width = self.crop_height = 0
        self.most_width = self.most_height = 0
        self.is_reserved = False
        for word in words:
            name, number = word.split('=')
            if name in ('reserved_word', 'reserved_half', 'reserved_byte'):
                self.is_reserved = True
            else:
                getattr(self, name)
                setattr(self, name, int(number))

    def are_known(self):
        """Whether they exist, whatever the picture is."""
        if self.transform == TRANSFORMS.index('None'):
            if self.layout or self.upright or any(self.crop() + self.most()):
                return False
        if self.is_reserved or max(self.bottom_up, self.upright, self.luma) > 1:
            return False
        return self.transform < len(TRANSFORMS) and self.scale in (0, 1, 2, 4, 8)

    def are_as_coded(self):
        """Whether they ask for samples as the stream has them, and for no arrangement of them."""
        arranged = self.stride, self.layout, self.bottom_up, self.transform, self.upright, self.luma
        return not any(arranged + self.crop() + self.most())

    def crop(self):
        """The first column and line of a part, and its width and height: all 0 for all."""
        return self.crop_left, self.crop_top, self.crop_width, self.crop_height

    def most(self):
        """The greatest width and height of the picture as it is shown: 0 for any."""
        return self.most_width, self.most_height

    def wanted(self):
        """The scale as the model's settings have it: eighths, or a least width and height."""
        if self.scale:
            return 8 // self.scale
        if self.min_width or self.min_height:
            return self.min_width or 65536, self.min_height or 65536
        return None

    def max_blocks(self, frame):
        """How many blocks all scans may code: those of one of all components, so many times."""
        if not self.max_passes:
            return None
        one = SimpleNamespace(comps=range(len(frame.comps)))
        blocks = self.max_passes * model.blocks_coded(frame, one, model.Settings())
        return min(blocks, 2**64 - 1)

    def settings(self, frame):
        return model.Settings(
            transform=TRANSFORMS[self.transform],
            scale=self.wanted(),
            max_blocks=self.max_blocks(frame),
            luma=bool(self.luma),
        )


# ---- headers


def header_of(stream):
    """The frame, the bytes up to the end of its header, and what was said before it."""
    trace = {}
    # (no scan is read, as none may code a block)
    meaning = model.meaning(stream, model.Settings(max_blocks=0), trace)
    if 'header' not in trace:
        raise refusal(settled(meaning)[1])
    return (trace['frame'],) + trace['header']


def segments(stream):
    """The segments up to the end of the image, or as far as they are whole: of each the marker, and
    where its payload begins and ends."""
    place = 0
    while True:
        code, found = first_segment(stream[place:])
        if code != OK:
            return
        offset, end = place + found['offset'], place + found['end']
        yield found['marker'], offset, end
        place = end
        if found['marker'] == 0xD9:
            return


def density_of(stream, header_bytes):
    """Units, Hdensity and Vdensity of the first JFIF segment (T.871, 10.1)."""
    for marker, offset, end in segments(stream[:header_bytes]):
        payload = stream[offset:end]
        if marker == 0xE0 and payload[:5] == b'JFIF\0' and len(payload) >= 12:
            return (
                payload[7],
                int.from_bytes(payload[8:10], 'big'),
                int.from_bytes(payload[10:12], 'big'),
            )
    return 0, 0, 0


def transform_of(frame, said):
    """The number of the transform that a header asks for."""
    if len(frame.comps) == 1 or frame.process == 'lossless':
        return TRANSFORMS.index('None')
    name = model.choose(frame, said, model.Settings())
    return TRANSFORMS.index(name) if name in TRANSFORMS else 0


def upright_size(orientation, width, height):
    """The size of a picture that is turned upright, of which the stored one has this size."""
    return (height, width) if SIDES[orientation][0] in ('left', 'right') else (width, height)


def shown_part(options, width, height):
    """The columns and the lines that are asked for of a picture of this size, as it is shown."""
    left, top, wide, high = options.crop()
    if not any(options.crop()):
        return range(width), range(height)
    columns, rows = range(left, left + wide), range(top, top + high)
    if not columns or not rows or columns[-1] >= width or rows[-1] >= height:
        raise Refusal(BAD_ARGUMENT)
    return columns, rows


def fitted(width, height, options):
    """The size of a picture of this size, as it is shown, that is to fit within the options'."""
    most_width, most_height = options.most_width or width, options.most_height or height
    if width <= most_width and height <= most_height:
        return width, height
    # (the side that is too long by more keeps the whole of what it may have)
    if width * most_height >= height * most_width:
        return most_width, min(height, max(1, (2 * height * most_width + width) // (2 * width)))
    return min(width, max(1, (2 * width * most_height + height) // (2 * height))), most_height


def described(stream, options):
    """The frame, its scale, and the members of a picture that a header and options give."""
    frame, header_bytes, said = header_of(stream)
    scale = model.pick_scale(frame, options.wanted())
    orientation = orientation_of(said['exif'] or b'') or 1
    stored_size = model.info(frame, scale)[:2]
    width, height = upright_size(orientation if options.upright else 1, *stored_size)
    components, is_wide = model.samples_a_pixel(frame, options.settings(frame)), frame.precision > 8
    if options.layout > RGB16:
        raise Refusal(BAD_ARGUMENT)
    pixel_bytes = PIXEL_BYTES.get(options.layout, components * (1 + is_wide))
    columns, rows = shown_part(options, width, height)
    shown_size, (width, height) = (width, height), fitted(len(columns), len(rows), options)
    row_bytes = width * pixel_bytes
    stride = options.stride or row_bytes
    if not row_bytes <= stride <= 2**32:
        raise Refusal(BAD_ARGUMENT)
    coefficients, planes, *_ = decoding_bytes(frame, scale)
    unit, across, down = density_of(stream, header_bytes)
    told = {
        'size': stride * (height - 1) + row_bytes,
        'row_bytes': row_bytes,
        'decoding_bytes': coefficients + planes,
        'stream_bytes': header_bytes,
        'width': width,
        'height': height,
        'pixel_bytes': pixel_bytes,
        'layout': options.layout,
        'components': components,
        'precision': frame.precision,
        'sample_bytes': 1 + is_wide,
        'process': PROCESSES[frame.process],
        'orientation': orientation,
        'format': {1: 1 + is_wide, 3: 3, 4: 4}[components],
        'density_unit': unit,
        'horizontal_density': across,
        'vertical_density': down,
        'transform': transform_of(frame, said),
        'sampling': bytes(c.h << 4 | c.v for c in frame.comps),
        'planes': frame.sizes(scale),
        'planes_size': sum(w * h for w, h in frame.sizes(scale)) * (1 + is_wide),
        'stored_size': stored_size,
        'shown_size': shown_size,
        'part': (columns, rows),
    }
    return frame, scale, told


def is_too_large(options, told):
    samples = told['width'] * told['height'] * told['components']
    return 0 < options.max_samples < samples or 0 < options.max_bytes < told['decoding_bytes']


# ---- samples


def rgb_of(samples, precision, full):
    """Red, green and blue of a pixel of 1, 3 or 4 components, of which `full` is the greatest."""
    most = 2**precision - 1
    samples = [min(full, (sample * full + most // 2) // most) for sample in samples]
    if len(samples) == 1:
        return samples * 3
    if len(samples) == 4:
        black = samples[3]
        return [((full - ink) * (full - black) + full // 2) // full for ink in samples[:3]]
    return samples


def packed(red, green, blue):
    """The upper 5, 6 and 5 bits in a number of 16 bits."""
    return (red >> 3) << 11 | (green >> 2) << 5 | blue >> 3


def words(*numbers):
    """Numbers of two bytes, the lower first."""
    return b''.join(number.to_bytes(2, 'little') for number in numbers)


def pixel_in(layout, samples, precision):
    is_wide = layout in (GREY16, RGB16)
    red, green, blue = rgb_of(samples, precision, 65535 if is_wide else 255)
    luma = (19595 * red + 38470 * green + 7471 * blue + 32768) // 65536
    grey = red if len(samples) == 1 else luma
    if is_wide:
        return words(grey) if layout == GREY16 else words(red, green, blue)
    return {
        GREY: [grey],
        RGB: [red, green, blue],
        RGBA: [red, green, blue, 255],
        BGRA: [blue, green, red, 255],
        BGR: [blue, green, red],
        XRGB: [255, red, green, blue],
        ABGR: [255, blue, green, red],
        RGB565: words(packed(red, green, blue)),
    }[layout]


def upright_place(orientation, x, y, width, height):
    """How far across and down in the upright picture, of this size, a pixel of the stored one is."""
    first_row, first_column = SIDES[orientation]
    away = {first_row: y, first_column: x}
    across = away['left'] if 'left' in away else width - 1 - away['right']
    down = away['top'] if 'top' in away else height - 1 - away['bottom']
    return across, down


def turned(stored, options, told):
    """The pixels of a picture, turned upright if the options ask for that."""
    if not options.upright:
        return stored
    (wide, high), size = told['stored_size'], told['pixel_bytes']
    pixels = {}
    for y in range(high):
        for x in range(wide):
            at = (y * wide + x) * size
            place = upright_place(told['orientation'], x, y, *told['shown_size'])
            pixels[place[::-1]] = stored[at : at + size]
    return b''.join(pixels[place] for place in sorted(pixels))


def cut(shown, told):
    """The pixels of the part that is asked for of a picture as it is shown."""
    (wide, _), size, (columns, rows) = told['shown_size'], told['pixel_bytes'], told['part']
    starts = [(y * wide + columns[0]) * size for y in rows]
    return b''.join(shown[start : start + len(columns) * size] for start in starts)


def complete_rows(rows, options, told):
    """How many rows of the part, as it is stored, are among the first rows of the picture: those
    whose pixels are all among them, up to the first that has another."""
    orientation = told['orientation'] if options.upright else 1
    columns, lines = told['part']
    (wide, high), count = told['stored_size'], 0
    for y in range(high):
        places = [upright_place(orientation, x, y, *told['shown_size']) for x in range(wide)]
        if any(across in columns and down in lines for across, down in places):
            if y >= rows:
                break
            count += 1
    return count


def smaller(stored, options, told):
    """The part of a picture that is asked for, made smaller, as it is stored, and what is told of
    it: each sample is the mean of those in its place."""
    orientation = told['orientation'] if options.upright else 1
    size, count = told['sample_bytes'], told['components']
    (wide, high), (columns, rows) = told['stored_size'], told['part']
    places = [
        (x, y)
        for x in range(wide)
        for y in range(high)
        for across, down in [upright_place(orientation, x, y, *told['shown_size'])]
        if across in columns and down in rows
    ]
    (left, top), (right, bottom) = min(places), max(places)
    to_wide, to_high = upright_size(orientation, told['width'], told['height'])

    def box(first, last, boxes, index):
        side = last + 1 - first
        return range(first + index * side // boxes, first + (index + 1) * side // boxes)

    made = b''
    for y in range(to_high):
        for x in range(to_wide):
            for component in range(count):
                samples = [
                    int.from_bytes(stored[at : at + size], 'little')
                    for line in box(top, bottom, to_high, y)
                    for column in box(left, right, to_wide, x)
                    for at in [((line * wide + column) * count + component) * size]
                ]
                mean = (2 * sum(samples) + len(samples)) // (2 * len(samples))
                made += mean.to_bytes(size, 'little')
    shown = told['width'], told['height']
    part = range(shown[0]), range(shown[1])
    return made, dict(told, stored_size=(to_wide, to_high), shown_size=shown, part=part)


def put_lines(memory, stored, options, told):
    """Writes a picture as it is stored into memory, in the layout of the options."""
    row, height = told['row_bytes'], told['height']
    if (told['width'], height) != tuple(map(len, told['part'])):
        stored, told = smaller(stored, options, told)
    if options.layout:
        size = told['sample_bytes']
        samples = [
            int.from_bytes(stored[at : at + size], 'little') for at in range(0, len(stored), size)
        ]
        count = told['components']
        stored = bytes(
            byte
            for at in range(0, len(samples), count)
            for byte in pixel_in(options.layout, samples[at : at + count], told['precision'])
        )
    stored = cut(turned(stored, options, told), told)
    for line in range(height):
        place = height - 1 - line if options.bottom_up else line
        start = place * (options.stride or row)
        memory[start : start + row] = stored[line * row : (line + 1) * row]


# ---- calls


def picture_text(code, told):
    if code not in (OK, NO_ROOM, TOO_LARGE):
        told = dict(told, stream_bytes=0)
    told = dict(told, text=int(code != OK))
    members = ''.join(' %s %d' % (name, told[name]) for name in MEMBERS if told.get(name))
    sampling = told.get('sampling', b'').ljust(4, b'\0')
    planes = (list(told.get('planes', [])) + 4 * [(0, 0)])[:4]
    sizes = ''.join(' %dx%d' % size for size in planes)
    return '%s%s, sampling %s%s' % (
        NAMES[code],
        members,
        sampling.hex().upper(),
        ', planes' + sizes if 'planes' in told else '',
    )


def memory_text(memory):
    return ', memory ' + bytes(memory).hex().upper()


def read_info(stream, *words):
    options = Options(words)
    try:
        if not options.are_known():
            raise Refusal(BAD_ARGUMENT)
        told = described(stream, options)[2]
    except Refusal as found:
        return picture_text(found.code, found.told)
    return picture_text(TOO_LARGE if is_too_large(options, told) else OK, told)


def fill(stream, options, memory, is_partial):
    """Decodes into memory, and returns what is told."""
    if not options.are_known():
        raise Refusal(BAD_ARGUMENT)
    frame, _, told = described(stream, options)
    if is_too_large(options, told):
        raise Refusal(TOO_LARGE, **told)
    if len(memory) < told['size']:
        raise Refusal(NO_ROOM, **told)
    trace = {}
    if is_partial:
        got = model.shown(stream, options.settings(frame), trace)
    else:
        got = settled(model.meaning(stream, options.settings(frame), trace))
    if got[0] == 'err':
        code, named = fault_of(got[1])
        raise Refusal(code if is_partial else with_passes(code, trace), **told, **named)
    put_lines(memory, got[4], options, told)
    told['stream_bytes'] = trace.get('end', 0)
    if is_partial:
        told['whole_rows'] = complete_rows(got[6], options, told)
    if is_partial and got[5]:
        fault, named = fault_of(got[5])
        raise Refusal(PARTIAL, **told, **named, fault=with_passes(fault, trace))
    return told


def fill_planes(stream, options, memory):
    """The same of the planes of the components, one after the other."""
    if not (options.are_known() and options.are_as_coded()):
        raise Refusal(BAD_ARGUMENT)
    frame, _, told = described(stream, options)
    if is_too_large(options, told):
        raise Refusal(TOO_LARGE, **told)
    if len(memory) < told['planes_size']:
        raise Refusal(NO_ROOM, **told)
    trace = {}
    got = settled(model.planes_of(stream, options.settings(frame), trace))
    if got[0] == 'err':
        code, named = fault_of(got[1])
        raise Refusal(with_passes(code, trace), **told, **named)
    samples = b''.join(plane for _, _, plane in got[1])
    memory[: len(samples)] = samples
    told['stream_bytes'] = trace.get('end', 0)
    return told


def filled(room, fill_memory):
    memory = bytearray([BEFORE] * int(room))
    try:
        code, told = OK, fill_memory(memory)
    except Refusal as found:
        code, told = found.code, found.told
    return picture_text(code, told) + memory_text(memory)


def decode(stream, room, *words):
    return filled(room, lambda memory: fill(stream, Options(words), memory, False))


def decode_partial(stream, room, *words):
    return filled(room, lambda memory: fill(stream, Options(words), memory, True))


def decode_planes(stream, room, *words):
    return filled(room, lambda memory: fill_planes(stream, Options(words), memory))


def meaning_within(stream, options, trace):
    """The meaning of a stream within the limits that count for metadata, at full size."""
    limits = Options([])
    limits.max_samples, limits.max_bytes = options.max_samples, options.max_bytes
    limits.max_passes = options.max_passes
    settings = model.Settings()
    try:
        frame, _, told = described(stream, limits)
        if is_too_large(limits, told):
            raise Refusal(TOO_LARGE)
        settings = limits.settings(frame)
    except Refusal as found:
        # (a header that is refused has no scans)
        if found.code == TOO_LARGE:
            raise
    return model.meaning(stream, settings, trace)


def data_of(stream, kind, options):
    """The metadata of a kind, or the value that a call returns."""
    is_whole, kind = kind >= 16, kind % 16
    trace = {}
    if is_whole:
        meaning = meaning_within(stream, options, trace)
    else:
        meaning = model.meaning(stream, model.Settings(), trace)
    said = trace['state'] if is_whole or 'header' not in trace else trace['header'][1]
    data = {1: said['exif'], 2: said['xmp'], 3: model.icc_profile(said['icc'])}[kind]
    if data is not None:
        return data
    if meaning[0] == 'err' and (is_whole or 'header' not in trace):
        raise refusal(settled(meaning)[1])
    raise Refusal(NO_DATA)


def copied(room, find):
    """What is written of data that are found, and are copied into memory where they have room."""
    memory, length = bytearray([BEFORE] * int(room)), 0
    try:
        data = find()
        code, length = OK, len(data)
        if length > len(memory):
            raise Refusal(NO_ROOM)
        memory[:length] = data
    except Refusal as found:
        code = found.code
    return NAMES[code] + (' length %d' % length if length else '') + memory_text(memory)


def metadata(stream, kind, room, *words):
    def find():
        if int(kind) not in (1, 2, 3, 17, 18, 19):
            raise Refusal(BAD_ARGUMENT)
        return data_of(stream, int(kind), Options(words))

    return copied(room, find)


def joined_metadata(stream, kind, room):
    def find():
        found = [
            (marker - 0xE0, stream[offset:end])
            for marker, offset, end in segments(stream)
            if 0xE0 <= marker <= 0xEF
        ]
        if int(kind) not in JOINED:
            raise Refusal(BAD_ARGUMENT)
        data = JOINED[int(kind)](found)
        if data is None:
            raise Refusal(NO_DATA)
        return data

    return copied(room, find)


def find_metadata(stream):
    exif, xmp, icc, place, is_ended = (0, 0), (0, 0), [], 0, False
    for marker, offset, end in segments(stream):
        payload, place, is_ended = stream[offset:end], end, marker == 0xD9
        if marker == 0xE1 and payload.startswith(b'Exif\0\0'):
            exif = offset + 6, len(payload) - 6
        if marker == 0xE1 and payload.startswith(b'http://ns.adobe.com/xap/1.0/\0'):
            xmp = offset + 29, len(payload) - 29
        if marker == 0xE2 and payload.startswith(b'ICC_PROFILE\0') and len(payload) > 14:
            icc.append((offset + 14, len(payload) - 14))
    members = zip(
        'exif.offset exif.size xmp.offset xmp.size stream_bytes icc_parts ended'.split(),
        exif + xmp + (place, len(icc), is_ended),
    )
    return (
        'OK'
        + ''.join(' %s %d' % member for member in members if member[1])
        + ''.join(', %d %d' % part for part in icc[:255])
    )


def first_segment(data):
    """The first segment in some bytes (T.81, B.1.1.2 and B.1.1.4): the value of the call, and the
    members that are not 0."""
    at = 0
    while at + 1 < len(data) and not (data[at] == 0xFF and 0 < data[at + 1] < 0xFF):
        at += 1
    if at + 1 >= len(data):
        # without a length field two bytes make a segment
        begun = int(data[-1:] == b'\xff')
        return TRUNCATED, {'needed': 2 - begun, 'skipped': len(data) - begun}
    marker, start = data[at + 1], at + 2
    found = {'marker': marker}
    if marker == 0x01 or 0xD0 <= marker <= 0xD9:
        return OK, dict(found, offset=start, end=start)
    length = data[start : start + 2]
    # the least length field that begins like this one
    least = max(2, int.from_bytes(length.ljust(2, b'\0'), 'big'))
    if len(length) == 2 and least != int.from_bytes(length, 'big'):
        return MALFORMED, found
    if start + least > len(data):
        return TRUNCATED, dict(found, needed=start + least - len(data), skipped=at)
    end = start + least
    return OK, dict(found, offset=start + 2, size=least - 2, end=end)


def next_segment(stream, at):
    code, found = first_segment(stream[int(at) :])
    members = ('offset', 'size', 'end', 'needed', 'skipped')
    text = ''.join(' %s %d' % (name, found[name]) for name in members if found.get(name))
    return '%s%s, marker %02X' % (NAMES[code], text, found.get('marker', 0))


CALLS = {
    call.__name__: call
    for call in (
        *(read_info, decode, decode_partial, decode_planes),
        *(metadata, joined_metadata, find_metadata, next_segment),
    )
}


def lines_of(case):
    """What is written for a case."""
    yield 'case ' + case.name
    for name, *words in case.calls:
        yield '%s: %s' % (' '.join([name] + words), CALLS[name](case.stream, *words))


def answers_of(path, written):
    """The lines beside a case file, which are written first if there are some to write."""
    path = os.path.splitext(path)[0] + '.answers'
    if written is not None:
        with open(path, 'w', encoding='utf-8') as file:
            file.write(''.join(line + '\n' for line in written))
    with open(path, encoding='utf-8') as file:
        return file.read().splitlines()


def main():
    is_written = '--check' not in sys.argv
    faults, cases, calls = [], 0, 0
    for path in sorted(glob.glob(os.path.join(CASES, '*.case'))):
        of_file = cases_of(path)
        wanted = [line for case in of_file for line in lines_of(case)]
        given = answers_of(path, wanted if is_written else None)
        cases, calls = cases + len(of_file), calls + len(wanted) - len(of_file)
        faults += [
            '%s\n    by the model: %s' % both for both in zip(given, wanted) if both[0] != both[1]
        ]
        if len(given) != len(wanted):
            faults.append('%s: %d lines, by the model %d' % (path, len(given), len(wanted)))
    print('calls: %d cases, %d calls, %d faults' % (cases, calls, len(faults)))
    for fault in faults:
        print('    ' + fault)
    return bool(faults)


if __name__ == '__main__':
    sys.exit(main())
