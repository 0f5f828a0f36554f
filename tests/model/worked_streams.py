#!/usr/bin/env python3
"""Worked streams, of which the picture or the refusal was found by hand, against the model, or
against a program: worked_streams.py [PROGRAM..]"""
import re
import subprocess
import sys

from model import Settings, hx, idct8, idct1, meaning


def expand(text):
    """A short notation to bytes: (XX xN) repeats, Q D A F S are a quantization table, DC and AC
    tables of one code, a frame and a scan header."""

    def rep(m):
        return ' ' + ' '.join([m.group(1)] * int(m.group(2))) + ' '

    text = re.sub(r'\(([0-9A-F ]+) x ?(\d+)\)', rep, text)
    text = re.sub(r'Q\((\w\w)\)', lambda m: 'FFDB 0043 00 ' + m.group(1) * 64, text)
    text = re.sub(r'D\((\w\w)\)', lambda m: 'FFC4 0014 00 01 ' + '00' * 15 + m.group(1), text)
    text = re.sub(r'A\((\w\w)\)', lambda m: 'FFC4 0014 10 01 ' + '00' * 15 + m.group(1), text)
    text = re.sub(
        r'F\((\w\w)\)', lambda m: 'FF' + m.group(1) + ' 000B 08 0008 0008 01 01 11 00', text
    )
    text = re.sub(r'S\(([0-9A-F ]+)\)', lambda m: 'FFDA 0008 01 01 00 ' + m.group(1), text)
    return hx(text)


ONE_BLOCK = 'FFD8 Q(01) F(C0) D(04) A(00) S(00 3F 00) 43 FFD9'
TWO_BLOCKS = 'FFD8 Q(01) FFC0 000B 08 0008 0010 01 01 11 00 D(04) A(00) S(00 3F 00) 40 FFD9'
DC_LEVEL = 'FFD8 Q(04) F(C2) D(03) S(00 00 01) 4F FFD9'
DC_REFINED = 'FFD8 Q(04) F(C2) D(03) S(00 00 01) 4F S(00 00 10) FF00 FFD9'
LOSSLESS_TABLE = 'FFC4 0015 00 01 01 (00 x14) 00 01'
LOSSLESS = 'FFD8 FFC3 000B 08 0002 0002 01 01 11 00 ' + LOSSLESS_TABLE + ' S(01 00 00) B2BF FFD9'
AC_LEVEL = 'FFD8 Q(10) F(C2) D(00) FFC4 0015 10 01 01 (00 x14) 01 00 S(00 00 00) 7F S(01 02 01) 6F'
AC_REFINED = AC_LEVEL + ' S(01 02 10) 3F FFD9'
THREE_FRAME = 'FFC0 0011 08 0008 0008 03 52 11 00 47 11 00 42 11 00'
THREE_SCAN = 'FFDA 000C 03 52 00 47 00 42 00 00 3F 00'
THREE = 'FFD8 Q(01) ' + THREE_FRAME + ' D(04) A(00) ' + THREE_SCAN + ' 40E7BF FFD9'
MJPEG = 'FFD8 FFE0 0007 4156493100 Q(01) F(C0) S(00 3F 00) B15F FFD9'
ONE_AC = 'FFD8 Q(40) F(C0) D(00) FFC4 0015 10 01 01 (00 x14) 01 00 S(00 3F 00) 37 FFD9'
LOSSLESS_16 = 'FFD8 FFC3 000B 10 0001 0001 01 01 11 00 D(00) S(01 00 00) 7F FFD9'


def kind_of(text):
    """the refusal's name, from the line that jpegraw writes"""
    text = text.strip()
    text = text[len('jpegraw: ') :] if text.startswith('jpegraw: ') else text
    if text.startswith('invalid JPEG format: '):
        return 'Format'
    if text.startswith('unsupported JPEG feature: '):
        return 'Unsupported(%s)' % text[len('unsupported JPEG feature: ') :]
    return 'Io'


R = []  # (name, bytes, settings, expected): expected is (info, pixels) or an error's name


def ok(name, text, line, pixels, **kw):
    R.append(
        (
            name,
            expand(text) if isinstance(text, str) else text,
            Settings(**kw),
            (line, bytes(pixels)),
        )
    )


def no(name, text, kind, **kw):
    R.append((name, expand(text) if isinstance(text, str) else text, Settings(**kw), kind))


G8 = '8 8 L8'
ok('one block', ONE_BLOCK, G8, [129] * 64)
ok(
    'one block, progressive',
    'FFD8 Q(01) F(C2) D(04) A(00) S(00 00 00) 47 S(01 3F 00) 7F FFD9',
    G8,
    [129] * 64,
)
ok('DC at level 1', DC_LEVEL, G8, [132] * 64)
ok('DC refined', DC_REFINED, G8, [133] * 64)
ok('two blocks', TWO_BLOCKS, '16 8 L8', ([129] * 8 + [127] * 8) * 8)
no('a DC difference beyond the bits', TWO_BLOCKS.replace(' 40 FFD9', ' 43 FFD9'), 'Format')
ok('lossless 2x2', LOSSLESS, '2 2 L8', hx('81808282'))
ok('AC refined', AC_REFINED, '2 2 L8', [132, 120, 136, 124], scale=(2, 2))
ok('AC refined b', AC_LEVEL + ' FFD9', '2 2 L8', [132, 124, 132, 124], scale=(2, 2))
no(
    'no height',
    ONE_BLOCK.replace('08 0008 0008', '08 0000 0008').replace(
        'F(C0)', 'FFC0 000B 08 0000 0008 01 01 11 00'
    ),
    'Unsupported(DNL)',
)
full = expand(ONE_BLOCK)
for cut in range(141):
    no('cut, or a marker of 0/%d' % cut, full[:cut], 'Io')
no('cut, or a marker of 0 b', ONE_BLOCK.replace('43 FFD9', '43 FFFF00 FFD9'), 'Format')
INTERVALS = TWO_BLOCKS.replace('S(00 3F 00) 40', 'FFDD 0004 0001 S(00 3F 00) %s')
ok('restarts a', INTERVALS % '43 FFD0 43', '16 8 L8', [129] * 128)
no('restarts b', INTERVALS % '43 FFD1 43', 'Format')
ok('restarts c', INTERVALS % '43 (00 x6) FFD0 43', '16 8 L8', [129] * 128)
no('restarts d', INTERVALS % '43 (00 x7) FFD0 43', 'Format')
no(
    'stuffed bytes before a marker a',
    ONE_BLOCK.replace('43 FFD9', '43 (00 x6) FFFF00 FFD9'),
    'Format',
)
ok(
    'stuffed bytes before a marker b',
    ONE_BLOCK.replace('43 FFD9', '43 (00 x7) FFFF00 FFD9'),
    G8,
    [129] * 64,
)
C8 = '8 8 RGB24'
ok('three components and their transforms a', THREE, C8, [129, 127, 130] * 64)
THREE_NUMBERED = (
    THREE.replace('52 11', '01 11')
    .replace('47 11', '02 11')
    .replace('42 11', '03 11')
    .replace('52 00 47 00 42 00', '01 00 02 00 03 00')
)
ok('three components and their transforms b', THREE_NUMBERED, C8, [132, 128, 127] * 64)
ok(
    'three components and their transforms c',
    THREE,
    C8,
    ([129] * 8 + [127] * 8 + [130] * 8) * 8,
    transform='None',
)
no('three components and their transforms d', THREE, 'Format', transform='CMYK')
no(
    'three components and their transforms e',
    THREE,
    'Unsupported(ColorTransform(JcsBgRgb))',
    transform='JcsBgRgb',
)
ok(
    'a second scan of a component',
    ONE_BLOCK.replace('43 FFD9', '43 S(00 3F 00) 7B FFD9'),
    G8,
    [129] * 64,
)
NEGATIVE_DC = DC_LEVEL.replace('Q(04)', 'Q(08)').replace('D(03)', 'D(02)').replace('4F', '1F')
ok('a negative DC and its refinement a', NEGATIVE_DC, G8, [122] * 64)
ok(
    'a negative DC and its refinement b',
    NEGATIVE_DC.replace(' FFD9', ' S(00 00 10) FF00 FFD9'),
    G8,
    [123] * 64,
)
ok('MJPEG tables a', MJPEG, G8, [129] * 64)
no('MJPEG tables b', MJPEG.replace('FFE0 0007 4156493100', ''), 'Format')
ok('lossless of 16 bits, and restarts a', LOSSLESS_16, '1 1 L16', hx('0080'))
ok(
    'lossless of 16 bits, and restarts b',
    LOSSLESS_16.replace('D(00)', 'D(10)'),
    '1 1 L16',
    hx('0000'),
)
LOSSLESS_INTERVALS = LOSSLESS.replace('S(01 00 00) B2BF', 'FFDD 0004 %s S(01 00 00) %s')
ok(
    'lossless of 16 bits, and restarts c',
    LOSSLESS_INTERVALS % ('0002', 'B3 FFD0 AF'),
    '2 2 L8',
    hx('81808181'),
)
no('lossless of 16 bits, and restarts d', LOSSLESS_INTERVALS % ('0001', 'B2BF'), 'Format')
no('lossless of 16 bits, and restarts e', LOSSLESS_INTERVALS % ('0003', 'B2BF'), 'Format')
ok(
    'lossless of 16 bits, and restarts f',
    LOSSLESS_INTERVALS % ('0004', 'B2BF'),
    '2 2 L8',
    hx('81808282'),
)
no(
    'features that are refused a',
    ONE_BLOCK.replace('F(C0)', 'F(C9)'),
    'Unsupported(ArithmeticEntropyCoding)',
)
no('features that are refused b', ONE_BLOCK.replace('F(C0)', 'F(C5)'), 'Unsupported(Hierarchical)')
no('features that are refused c', ONE_BLOCK.replace('F(C0)', 'F(CD)'), 'Unsupported(Hierarchical)')
no(
    'features that are refused d',
    ONE_BLOCK.replace('F(C0)', 'FFC1 000B 0C 0008 0008 01 01 11 00'),
    'Unsupported(SamplePrecision(12))',
)
no(
    'features that are refused e',
    ONE_BLOCK.replace('F(C0)', 'FFC0 000B 0C 0008 0008 01 01 11 00'),
    'Format',
)
no(
    'features that are refused f',
    ONE_BLOCK.replace('F(C0)', 'FFC0 000E 08 0008 0008 02 01 11 00 02 11 00'),
    'Unsupported(ComponentCount(2))',
)
no(
    'features that are refused g',
    ONE_BLOCK.replace('F(C0)', 'F(C0) F(C0)'),
    'Unsupported(Hierarchical)',
)
no('limit and scale a', ONE_BLOCK, 'Format', limit=63)
ok('limit and scale b', ONE_BLOCK, G8, [129] * 64, limit=64)
ok('limit and scale c', ONE_BLOCK, '1 1 L8', [129], scale=(1, 1))
no('no bytes', b'', 'Io')
ok('an AC coefficient', ONE_AC, G8, [139, 137, 134, 130, 126, 122, 119, 117] * 8)
ok('Exif data', ONE_BLOCK.replace('Q(01)', 'FFE1 000B 457869660000 010203 Q(01)'), G8, [129] * 64)
no(
    "Adobe's transform of one component",
    ONE_BLOCK.replace('Q(01)', 'FFE1 000B 457869660000 010203 Q(01)').replace(
        'F(C0)', 'FFEE 000E 41646F626500 6400000000 03 F(C0)'
    ),
    'Format',
)
ok('what may follow a scan a', ONE_BLOCK.replace('43 FFD9', '43 FFD0 FFD0 FFD9'), G8, [129] * 64)
ok('what may follow a scan b', ONE_BLOCK.replace('43 FFD9', '43 (00 x7) FFD0 FFD9'), G8, [129] * 64)
no('what may follow a scan c', ONE_BLOCK.replace('43 FFD9', '43 (00 x7) FFD0 FFD0 FFD9'), 'Format')
no(
    'what may follow a scan d',
    ONE_BLOCK.replace('43 FFD9', '43 FFDC 0004 0008 FFD9'),
    'Unsupported(DNL)',
)
no('what may follow a scan e', ONE_BLOCK.replace('F(C0)', 'FFDC 0004 0008 F(C0)'), 'Format')
ok(
    'bytes and comments between segments a',
    ONE_BLOCK.replace('F(C0)', '41FF0042FFFF F(C0)'),
    G8,
    [129] * 64,
)
ok(
    'bytes and comments between segments b',
    ONE_BLOCK.replace('F(C0)', 'FFFE 0003 43 F(C0)'),
    G8,
    [129] * 64,
)
import itertools

for o in itertools.permutations([('52', '43'), ('47', '3B'), ('42', '7B')]):
    ok(
        'components in scans of their own, in each order',
        'FFD8 Q(01) '
        + THREE_FRAME
        + ' D(04) A(00) '
        + ' '.join('FFDA 0008 01 %s 00 00 3F 00 %s' % x for x in o)
        + ' FFD9',
        C8,
        [129, 127, 130] * 64,
    )
ok(
    '4:2:2',
    'FFD8 Q(01) FFC0 0011 08 0008 0010 03 52 21 00 47 11 00 42 11 00 D(04) A(00) '
    + THREE_SCAN
    + ' 40E40E FFD9',
    '16 8 RGB24',
    ([129, 129, 127] * 8 + [128, 129, 127] * 8) * 8,
)
ent = ' '.join('43 FFD%d' % (i % 8) for i in range(9)) + ' 43'
TEN_INTERVALS = ONE_BLOCK.replace('F(C0)', 'FFC0 000B 08 0008 0050 01 01 11 00').replace(
    'S(00 3F 00) 43', 'FFDD 0004 0001 S(00 3F 00) ' + ent
)
ok('ten restart intervals a', TEN_INTERVALS, '80 8 L8', [129] * 640)
no('ten restart intervals b', TEN_INTERVALS.replace('FFD0 43 FFD9', 'FFD1 43 FFD9'), 'Format')
ok(
    'a quantization table after the scan',
    ONE_BLOCK.replace('43 FFD9', '43 Q(08) S(00 3F 00) 43 FFD9'),
    G8,
    [129] * 64,
)
ok('scales a', ONE_AC, '4 4 L8', [138, 132, 124, 118] * 4, scale=(4, 4))
ok('scales b', ONE_AC, '2 2 L8', [136, 120, 136, 120], scale=(2, 2))
ok('scales c', ONE_AC, '1 1 L8', [128], scale=(2, 1))
ZEROS_TABLE = 'FFC4 0016 10 01 01 01 (00 x13) 01 F0 00'
ZEROS_REFINED = 'FFD8 Q(10) F(C2) D(00) ' + ZEROS_TABLE + ' S(00 00 00) 7F S(01 3F 01) 9D'
ok(
    'sixteen zeros, refined a',
    ZEROS_REFINED + ' S(01 3F 10) 9E FFD9',
    '4 4 L8',
    [132, 119, 135, 126, 122, 138, 123, 129, 127, 133, 118, 134, 130, 121, 137, 124],
    scale=(4, 4),
)
ok(
    'sixteen zeros, refined b',
    ZEROS_REFINED + ' FFD9',
    '4 4 L8',
    [130, 123, 133, 126, 126, 133, 123, 130, 126, 133, 123, 130, 130, 123, 133, 126],
    scale=(4, 4),
)
END_OF_BANDS = (
    'FFD8 Q(01) FFC2 000B 08 0008 0010 01 01 11 00 D(04) A(10) S(00 00 00) 41C0 S(01 3F 00) %s FFD9'
)
ok('end of bands a', END_OF_BANDS % '3F', '16 8 L8', ([129] * 8 + [128] * 8) * 8)
ok('end of bands b', END_OF_BANDS % '7F', '16 8 L8', ([129] * 8 + [128] * 8) * 8)
ok(
    'three components, progressive',
    THREE.replace('FFC0', 'FFC2').replace('00 3F 00 40E7BF', '00 00 00 41DF'),
    C8,
    [129, 127, 130] * 64,
)
no(
    'scans without what they need a',
    DC_REFINED.replace('S(00 00 10)', 'FFDA 0008 01 01 10 00 00 10'),
    'Format',
)
no('scans without what they need b', DC_LEVEL.replace('S(00 00 01) 4F', ''), 'Format')
no('scans without what they need c', DC_LEVEL.replace('Q(04)', ''), 'Format')
for sel, v in enumerate('00 82 80 81 81 81 80 81'.split()):
    ok(
        'predictors/%d' % sel,
        LOSSLESS.replace('S(01 00 00)', 'S(0%d 00 00)' % sel),
        '2 2 L8',
        hx('818082' + v),
    )
ok(
    'point transform, precision and scale of lossless frames a',
    LOSSLESS.replace('S(01 00 00)', 'S(01 00 02)'),
    '2 2 L8',
    hx('84808888'),
)
no(
    'point transform, precision and scale of lossless frames b',
    LOSSLESS.replace('S(01 00 00)', 'S(01 00 08)'),
    'Format',
)
ok(
    'point transform, precision and scale of lossless frames c',
    LOSSLESS.replace('000B 08 0002', '000B 04 0002'),
    '2 2 L8',
    hx('09080A0A'),
)
ok(
    'point transform, precision and scale of lossless frames d',
    LOSSLESS,
    '2 2 L8',
    hx('81808282'),
    scale=(1, 1),
)
LOSSLESS_FRAME = 'FFD8 FFC3 0011 08 0001 0001 03 01 11 00 02 11 00 03 11 00 ' + LOSSLESS_TABLE
LOSSLESS_SCANS = [('01', 'BF'), ('02', '7F'), ('03', '9F')]
for o in itertools.permutations(LOSSLESS_SCANS):
    ok(
        'lossless components in scans of their own a',
        LOSSLESS_FRAME + ' '.join(' FFDA 0008 01 %s 00 01 00 00 %s' % x for x in o) + ' FFD9',
        '1 1 RGB24',
        hx('81807F'),
    )
ok(
    'lossless components in scans of their own b',
    LOSSLESS_FRAME + ' FFDA 000C 03 01 00 02 00 03 00 01 00 00 A9 FFD9',
    '1 1 RGB24',
    hx('81807F'),
)
no(
    'lossless components in scans of their own c',
    LOSSLESS_FRAME
    + ' '.join(
        ' FFDA 0008 01 %s 00 01 00 00 %s' % x for x in (LOSSLESS_SCANS[0], LOSSLESS_SCANS[2])
    )
    + ' FFD9',
    'Format',
)
ok(
    'a second lossless scan, and a missing table a',
    LOSSLESS.replace('B2BF', 'B2BF S(02 00 00) B2BF'),
    '2 2 L8',
    hx('81808280'),
)
no('a second lossless scan, and a missing table b', LOSSLESS_16.replace('D(00)', 'D(11)'), 'Format')
CORNER = [132, 120, 136, 124]
ok(
    'three coefficients in order',
    'FFD8 Q(10) F(C0) D(00) FFC4 0016 10 01 01 01 (00 x13) 01 02 00 S(00 3F 00) 59BF FFD9',
    '2 2 L8',
    CORNER,
    scale=(2, 2),
)
ok(
    'the same in three progressive scans',
    'FFD8 Q(10) F(C2) D(00) FFC4 0016 10 01 01 01 (00 x13) 01 02 00 S(00 00 00) 7F'
    ' S(02 3F 00) 37 S(01 01 00) BF FFD9',
    '2 2 L8',
    CORNER,
    scale=(2, 2),
)
REFINING_SCANS = [' S(00 00 00) 7F', ' S(01 02 01) 6F', ' S(02 02 10) 3F', ' S(01 01 10) BF']
REFINED_HEADER = 'FFD8 Q(10) F(C2) D(00) FFC4 0015 10 01 01 (00 x14) 01 00'
for n, want in ((1, [128] * 4), (2, [132, 124, 132, 124]), (3, [130, 122, 134, 126]), (4, CORNER)):
    ok(
        'the same with refinements, scan by scan/%d' % n,
        REFINED_HEADER + ''.join(REFINING_SCANS[:n]) + ' FFD9',
        '2 2 L8',
        want,
        scale=(2, 2),
    )
ok('no entropy-coded bytes a', ONE_BLOCK.replace('43 FFD9', 'FFD9'), G8, [126] * 64)
no(
    'no entropy-coded bytes b',
    ONE_BLOCK.replace('43 FFD9', 'FFD9').replace('D(04)', 'D(0C)'),
    'Format',
)
RUNS = (
    'FFD8 Q(40) FFC2 000B 08 0008 0010 01 01 11 00 D(00) FFC4 0015 10 01 01 (00 x14) %s 01'
    ' S(00 00 00) 3F S(01 01 00) %s FFD9'
)
RUNS_PIXELS = ([128] * 8 + [139, 137, 134, 130, 126, 122, 119, 117]) * 8
ok('runs of end of band a', RUNS % ('11', '6F'), '16 8 L8', RUNS_PIXELS)
ok('runs of end of band b', RUNS % ('1F', '5F'), '16 8 L8', RUNS_PIXELS)
ok(
    'padding by ones',
    TWO_BLOCKS.replace('A(00)', 'A(10)').replace('40 FFD9', '407F FFD9'),
    '16 8 L8',
    ([129] * 8 + [128] * 8) * 8,
)
GREATEST_AC = (
    'FFD8 Q(01) F(C2) D(00) FFC4 0015 10 01 01 (00 x14) 0F 00 S(00 00 00) 7F'
    ' S(01 01 01) 4000 S(01 01 10) %s FFD9'
)
no('the greatest AC coefficient a', GREATEST_AC % 'BF', 'Format')
ok('the greatest AC coefficient b', GREATEST_AC % '9F', G8, [0, 0, 0, 0, 255, 255, 255, 255] * 8)
ok('DC at level 7', 'FFD8 Q(01) F(C2) D(0B) S(00 00 07) 7FFF00 FFD9', G8, [112] * 64)
ok(
    'a refinement of one coefficient',
    AC_LEVEL + ' S(01 01 10) 7F FFD9',
    '2 2 L8',
    [130, 126, 130, 126],
    scale=(2, 2),
)


def i16(x):
    x &= 0xFFFF
    return x - 65536 if x >= 32768 else x


wide = [idct8([i16(8 - 15 * k)] + [0] * 63, [1] * 64)[0] for k in range(8192) for _ in range(8)][
    :65535
]
assert (
    wide[0] == 129
    and wide[8] == 127
    and wide[17480] == 0
    and wide[17488] == 255
    and wide[-1] == 255
)
ok(
    '65535 columns, 65535 lines a',
    ONE_BLOCK.replace('F(C0)', 'FFC0 000B 08 0001 FFFF 01 01 11 00').replace('43 FFD9', '40 FFD9'),
    '65535 1 L8',
    wide,
)
ok(
    '65535 columns, 65535 lines b',
    ONE_BLOCK.replace('F(C0)', 'FFC0 000B 08 FFFF 0001 01 01 11 00').replace('43 FFD9', '40 FFD9'),
    '1 65535 L8',
    wide,
)
ok(
    'factors 4, 2 and 4',
    'FFD8 Q(01) FFC0 0011 08 0008 0010 03 52 41 00 47 21 00 42 41 00 D(04) A(00) '
    + ' '.join(
        'FFDA 0008 01 %s 00 00 3F 00 %s' % x for x in (('52', '40EF'), ('47', '43'), ('42', '40EF'))
    )
    + ' FFD9',
    '16 8 RGB24',
    ([129] * 24 + [128, 129, 128] * 8) * 8,
)
no('limits of several components a', THREE, 'Format', limit=191)
ok('limits of several components b', THREE, C8, [129, 127, 130] * 64, limit=192)
ok('limits of several components c', LOSSLESS_16, '1 1 L16', hx('0080'), limit=1)
INTERLEAVED = 'FFDA 000C 03 01 00 02 00 03 00 01 00 00 '
UNEQUAL_FRAME = 'FFD8 FFC3 0011 08 0001 %s 03 01 21 00 02 11 00 03 11 00 ' + LOSSLESS_TABLE + ' '
ok(
    'lossless with unequal factors a',
    UNEQUAL_FRAME % '0002' + INTERLEAVED + 'B17F FFD9',
    '2 1 RGB24',
    hx('818081808081'),
)
ok(
    'lossless with unequal factors b',
    UNEQUAL_FRAME % '0002'
    + ' '.join(
        'FFDA 0008 01 %s 00 01 00 00 %s' % x for x in (('01', 'B3'), ('02', '7F'), ('03', 'BF'))
    )
    + ' FFD9',
    '2 1 RGB24',
    hx('818081808081'),
)
UNEQUAL_PIXELS = hx('818080818080808180')
ok(
    'lossless with unequal factors, padded a',
    UNEQUAL_FRAME % '0003' + INTERLEAVED + 'A25A FFD9',
    '3 1 RGB24',
    UNEQUAL_PIXELS,
)
ok(
    'lossless with unequal factors, padded b',
    UNEQUAL_FRAME % '0003' + INTERLEAVED + 'A22B FFD9',
    '3 1 RGB24',
    UNEQUAL_PIXELS,
)
no(
    'lossless with unequal factors, padded c',
    UNEQUAL_FRAME % '0003' + 'FFDD 0004 0001 ' + INTERLEAVED + 'A25A FFD9',
    'Format',
)
ok(
    'lossless with unequal factors, padded d',
    UNEQUAL_FRAME % '0003' + 'FFDD 0004 0002 ' + INTERLEAVED + 'A25A FFD9',
    '3 1 RGB24',
    UNEQUAL_PIXELS,
)
ok(
    'lossless with factor 2 down, and restarts',
    'FFD8 FFC3 0011 08 0004 0001 03 01 12 00 02 11 00 03 11 00 '
    + LOSSLESS_TABLE
    + ' FFDD 0004 0001 '
    + INTERLEAVED
    + 'A3 FFD0 5A FFD9',
    '1 4 RGB24',
    hx('818080818080808180818180'),
)

# ---- a limit of the blocks that scans code
ok('two scans of a block each, at most 2', DC_REFINED, G8, [133] * 64, max_blocks=2)
no('two scans of a block each, at most 1', DC_REFINED, 'Format', max_blocks=1)
no('two scans of a block each, at most 0', DC_REFINED, 'Format', max_blocks=0)
ok('two blocks, at most 2', TWO_BLOCKS, '16 8 L8', ([129] * 8 + [127] * 8) * 8, max_blocks=2)
no('two blocks, at most 1', TWO_BLOCKS, 'Format', max_blocks=1)
ok('an MCU of three blocks, at most 3', THREE, '8 8 RGB24', [129, 127, 130] * 64, max_blocks=3)
no('an MCU of three blocks, at most 2', THREE, 'Format', max_blocks=2)
ok('four lossless samples, at most 1', LOSSLESS, '2 2 L8', [129, 128, 130, 130], max_blocks=1)
no('four lossless samples, at most 0', LOSSLESS, 'Format', max_blocks=0)
# the limit comes before the end of the data, and after that of the header
no('a block without the end, at most 1', ONE_BLOCK[: -len(' FFD9')], 'Io', max_blocks=1)
no('a block without the end, at most 0', ONE_BLOCK[: -len(' FFD9')], 'Format', max_blocks=0)
no('a block without its data and header', ONE_BLOCK[: ONE_BLOCK.index(' S(')], 'Io', max_blocks=0)


def main():
    args = sys.argv[1:]
    program = args
    bad = n = 0
    for name, data, settings, want in R:
        if program:
            if settings.transform or settings.scale or settings.limit != 2**64 - 1:
                continue
            if settings.max_blocks is not None:
                continue
            p = subprocess.run(program, input=data, capture_output=True, timeout=60)
            if p.returncode == 0:
                line, _, px = p.stdout.partition(b'\n')
                got = (line.decode(), px)
            else:
                got = (
                    'refused'
                    if p.returncode == 1
                    and p.stdout == b''
                    and p.stderr.startswith(b'jpegraw: ')
                    and p.stderr.count(b'\n') == 1
                    and p.stderr.endswith(b'\n')
                    else 'BROKEN %r' % (p,)
                )
                if isinstance(want, str) and got == 'refused':
                    got = kind_of(p.stderr.decode())
        else:
            g = meaning(data, settings)
            got = g[1] if g[0] == 'err' else ('%d %d %s' % g[1:4], g[4])
        n += 1
        if got != want:
            bad += 1
            print(name, 'wants', str(want)[:200], 'got', str(got)[:200])
    print('%d passed, %d failed' % (n - bad, bad))
    return bad > 0


if __name__ == '__main__':
    sys.exit(main())
