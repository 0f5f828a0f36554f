#!/usr/bin/env python3
"""An independent, slow model of what `decode` must return, written from T.81 and from what is said
of the original crate, not from the code.

meaning(bytes, settings) -> ('ok', width, height, format, pixels) or ('err', kind, in_scan)
kind is 'Format', 'Io' or 'Unsupported(..)'. Where in_scan is true it is left open
which of several faults is named, so Format and Io are both right.

shown(bytes, settings) -> ('ok', width, height, format, pixels, fault) or ('err', kind)
is what `decode_partial` must return: the picture of what a stream brings up to its first fault, and
the kind of that fault, or None. Here it is not left open which fault that is.

lines_of(bytes, settings) -> what meaning gives, and after a refusal the bytes of the lines that
`Rows` must have given before it.

model.py [--partial] < JPEG     writes the picture, and the fault to standard error
"""
import sys

ZIGZAG = [
    0,
    1,
    8,
    16,
    9,
    2,
    3,
    10,
    17,
    24,
    32,
    25,
    18,
    11,
    4,
    5,
    12,
    19,
    26,
    33,
    40,
    48,
    41,
    34,
    27,
    20,
    13,
    6,
    7,
    14,
    21,
    28,
    35,
    42,
    49,
    56,
    57,
    50,
    43,
    36,
    29,
    22,
    15,
    23,
    30,
    37,
    44,
    51,
    58,
    59,
    52,
    45,
    38,
    31,
    39,
    46,
    53,
    60,
    61,
    54,
    47,
    55,
    62,
    63,
]


class Refused(Exception):
    def __init__(self, kind, in_scan=False):
        super().__init__(kind)
        self.kind, self.in_scan = kind, in_scan


def fmt(in_scan=False):
    return Refused('Format', in_scan)


def unsupported(what):
    return Refused('Unsupported(%s)' % what)


def hx(s):
    return bytes.fromhex(s.replace(' ', '').replace('\n', ''))


class Settings:
    def __init__(
        self,
        transform=None,
        limit=2**64 - 1,
        scale=None,
        equal_factors=False,
        max_blocks=None,
        luma=False,
    ):
        self.transform = transform  # None, or one of the names of ColorTransform
        self.limit = limit
        self.scale = scale  # None, (requested_width, requested_height), or 1, 2, 4 or 8
        self.equal_factors = (
            equal_factors  # True: lossless scans ignore factors (the rule before the change)
        )
        self.max_blocks = max_blocks  # what all scans may code, or None
        self.luma = luma  # of a picture in colour the luma alone


# ---- bytes and codes


class Bytes:
    def __init__(self, b):
        self.b, self.p = b, 0

    def u8(self):
        if self.p >= len(self.b):
            raise Refused('Io')
        self.p += 1
        return self.b[self.p - 1]

    def u16(self):
        return self.u8() << 8 | self.u8()

    def take(self, n):
        if self.p + n > len(self.b):
            self.p = len(self.b)
            raise Refused('Io')
        self.p += n
        return self.b[self.p - n : self.p]

    def marker(self):
        """D1"""
        b, i = self.b, self.p
        while i + 1 < len(b):
            if b[i] == 0xFF and b[i + 1] not in (0, 0xFF):
                self.p = i + 2
                return b[i + 1]
            i += 1
        raise Refused('Io')

    def length(self):
        n = self.u16()
        if n < 2:
            raise fmt()
        return n


class Text:
    """D2 from place p: destuffed bytes with the place behind each, then an end.

    After a marker zero bits come without end, unless the text stops there: then there are none.
    """

    def __init__(self, b, p, stops=False):
        self.data, self.behind, self.stops = [], [], stops
        n = len(b)
        while True:
            if p >= n:
                self.end = ('fault', 'Io', n)
                break
            if b[p] != 0xFF:
                self.data.append(b[p])
                p += 1
                self.behind.append(p)
                continue
            if p + 1 < n and b[p + 1] == 0:
                self.data.append(0xFF)
                p += 2
                self.behind.append(p)
                continue
            q = p + 1
            while q < n and b[q] == 0xFF:
                q += 1
            if q >= n:
                self.end = ('fault', 'Io', n)
            elif b[q] == 0:
                self.end = ('fault', 'Format', q + 1)
            else:
                self.end = ('marker', b[q], q + 1)
            break
        self.k = 0

    def bit_at(self, i):
        if i < 8 * len(self.data):
            return self.data[i >> 3] >> (7 - (i & 7)) & 1
        if self.end[0] != 'marker':
            raise Refused(self.end[1], True)
        if self.stops:
            raise fmt(True)
        return 0

    def bits(self, n):
        v = 0
        for _ in range(n):
            v = v << 1 | self.bit_at(self.k)
            self.k += 1
        return v

    def symbol(self, table):
        """D5: symbol and length. Where the bits end inside a code, it is the end that is at fault,
        unless the bits that are there begin no code."""
        v = 0
        for n in range(1, 17):
            try:
                bit = self.bit_at(self.k + n - 1)
            except Refused:
                if not any(m >= n and code >> (m - n + 1) == v for m, code in table):
                    raise fmt(True)
                raise
            v = v << 1 | bit
            if (n, v) in table:
                self.k += n
                return table[n, v], n
        raise fmt(True)

    def left(self):
        return 8 * len(self.data) - self.k

    def finish(self):
        """D3: (marker or None, place where reading goes on)"""
        if self.left() <= 56:
            if self.end[0] == 'marker':
                return self.end[1], self.end[2]
            raise Refused(self.end[1], True)
        return None, self.behind[-(-(self.k + 57) // 8) - 1]


def codes(counts, values):
    """D4, or None"""
    table, lens = {}, []
    for i, c in enumerate(counts):
        lens += [i + 1] * c
    for i, n in enumerate(lens):
        num = sum(2 ** (n - lens[j]) for j in range(i))
        if num >= 2**n:
            return None
        table[n, num] = values[i]
    return table


def extend(v, s):
    return v if v >= 1 << (s - 1) else v - (1 << s) + 1


def i16(x):
    x &= 0xFFFF
    return x - 0x10000 if x >= 0x8000 else x


def default_tables():
    k3 = [0, 1, 5, 1, 1, 1, 1, 1, 1] + [0] * 7
    k4 = [0, 3, 1, 1, 1, 1, 1, 1, 1, 1, 1] + [0] * 5
    cat = list(range(12))
    k5 = list(hx('00020103030204030505040400000 17D'.replace(' ', '')))
    k6 = list(hx('0002010204040304070504040001 0277'))
    v5 = hx(
        """01 02 03 00 04 11 05 12 21 31 41 06 13 51 61 07
22 71 14 32 81 91 A1 08 23 42 B1 C1 15 52 D1 F0
24 33 62 72 82 09 0A 16 17 18 19 1A 25 26 27 28
29 2A 34 35 36 37 38 39 3A 43 44 45 46 47 48 49
4A 53 54 55 56 57 58 59 5A 63 64 65 66 67 68 69
6A 73 74 75 76 77 78 79 7A 83 84 85 86 87 88 89
8A 92 93 94 95 96 97 98 99 9A A2 A3 A4 A5 A6 A7
A8 A9 AA B2 B3 B4 B5 B6 B7 B8 B9 BA C2 C3 C4 C5
C6 C7 C8 C9 CA D2 D3 D4 D5 D6 D7 D8 D9 DA E1 E2
E3 E4 E5 E6 E7 E8 E9 EA F1 F2 F3 F4 F5 F6 F7 F8
F9 FA"""
    )
    v6 = hx(
        """00 01 02 03 11 04 05 21 31 06 12 41 51 07 61 71
13 22 32 81 08 14 42 91 A1 B1 C1 09 23 33 52 F0
15 62 72 D1 0A 16 24 34 E1 25 F1 17 18 19 1A 26
27 28 29 2A 35 36 37 38 39 3A 43 44 45 46 47 48
49 4A 53 54 55 56 57 58 59 5A 63 64 65 66 67 68
69 6A 73 74 75 76 77 78 79 7A 82 83 84 85 86 87
88 89 8A 92 93 94 95 96 97 98 99 9A A2 A3 A4 A5
A6 A7 A8 A9 AA B2 B3 B4 B5 B6 B7 B8 B9 BA C2 C3
C4 C5 C6 C7 C8 C9 CA D2 D3 D4 D5 D6 D7 D8 D9 DA
E2 E3 E4 E5 E6 E7 E8 E9 EA F2 F3 F4 F5 F6 F7 F8
F9 FA"""
    )
    return [codes(k3, cat), codes(k4, cat)], [codes(k5, v5), codes(k6, v6)]


# ---- frame


class Component:
    def __init__(self, ident, h, v, tq):
        self.id, self.h, self.v, self.tq = ident, h, v, tq


def ceil_div(a, b):
    return -(-a // b)


def rule(c, hmax, vmax, w, g):
    """04, section 5: the rule's name, or None"""
    h1, v1 = c.h == hmax or w == 1, c.v == vmax or g == 1
    h2, v2 = 2 * c.h == hmax, 2 * c.v == vmax
    if h1 and v1:
        return 'H1V1'
    if h2 and v1:
        return 'H2V1'
    if h1 and v2:
        return 'H1V2'
    if h2 and v2:
        return 'H2V2'
    if hmax % c.h == 0 and vmax % c.v == 0:
        return 'Generic'
    return None


class Frame:
    def sizes(self, s):
        """of each component: (samples wide, high)"""
        return [
            (ceil_div(self.w * c.h * s, self.hmax * 8), ceil_div(self.h * c.v * s, self.vmax * 8))
            for c in self.comps
        ]

    def output(self, s):
        return ceil_div(self.w * s, 8), ceil_div(self.h * s, 8)


def parse_sof(r, n):
    """what a frame header says, also of frames that no decoder here takes"""
    f = Frame()
    f.n = n
    base = n % 4  # 0 baseline/sequential, 1 extended, 2 progressive, 3 lossless
    f.process = {0: 'seq', 1: 'seq', 2: 'prog', 3: 'lossless'}[base]
    f.baseline = n == 0
    f.differential = n in (5, 6, 7, 13, 14, 15)
    f.arithmetic = n >= 9
    length = r.length()
    if length < 9:
        raise fmt()
    p = r.u8()
    if not (p == 8 or (p == 12 and n != 0) or (f.process == 'lossless' and p <= 16)):
        raise fmt()
    f.precision = p
    f.h, f.w = r.u16(), r.u16()
    if f.h == 0:
        raise unsupported('DNL')
    if f.w == 0:
        raise fmt()
    count = r.u8()
    if count < 1 or (f.process == 'prog' and count > 4) or length != 8 + 3 * count:
        raise fmt()
    f.comps = []
    for _ in range(count):
        ident = r.u8()
        if any(c.id == ident for c in f.comps):
            raise fmt()
        hv = r.u8()
        if not (1 <= hv >> 4 <= 4 and 1 <= hv & 15 <= 4):
            raise fmt()
        tq = r.u8()
        if tq > 3 or (f.process == 'lossless' and tq != 0):
            raise fmt()
        f.comps.append(Component(ident, hv >> 4, hv & 15, tq))
    f.hmax, f.vmax = max(c.h for c in f.comps), max(c.v for c in f.comps)
    f.mcus = ceil_div(f.w, 8 * f.hmax), ceil_div(f.h, 8 * f.vmax)
    return f


def check_frame(f):
    """refuses a frame by the feature that is not there"""
    p, count = f.precision, len(f.comps)
    if f.differential:
        raise unsupported('Hierarchical')
    if f.arithmetic:
        raise unsupported('ArithmeticEntropyCoding')
    if (f.process != 'lossless' and p != 8) or not 2 <= p <= 16:
        raise unsupported('SamplePrecision(%d)' % p)
    if count not in (1, 3, 4):
        raise unsupported('ComponentCount(%d)' % count)
    if any(rule(c, f.hmax, f.vmax, f.w, f.h) is None for c in f.comps):
        raise unsupported('NonIntegerSubsamplingRatio')


class Scan:
    pass


def parse_sos(r, f):
    s = Scan()
    length = r.length()
    if length <= 2:
        raise fmt()
    n = r.u8()
    if not 1 <= n <= 4 or length != 6 + 2 * n:
        raise fmt()
    s.comps, s.dc, s.ac = [], [], []
    for _ in range(n):
        ident = r.u8()
        at = [i for i, c in enumerate(f.comps) if c.id == ident]
        if not at or at[0] in s.comps or (s.comps and at[0] < max(s.comps)):
            raise fmt()
        t = r.u8()
        most = 1 if f.baseline else 3
        if t >> 4 > most or t & 15 > most:
            raise fmt()
        s.comps.append(at[0])
        s.dc.append(t >> 4)
        s.ac.append(t & 15)
    if n > 1 and sum(f.comps[i].h * f.comps[i].v for i in s.comps) > 10:
        raise fmt()
    s.ss, s.se, a = r.u8(), r.u8(), r.u8()
    s.ah, s.al = a >> 4, a & 15
    if s.al >= f.precision:
        raise fmt()
    if f.process == 'prog':
        if not s.ss <= s.se <= 63 or (s.ss == 0 and s.se != 0) or (s.ss > 0 and n != 1):
            raise fmt()
        if s.ah > 13 or s.al > 13 or (s.ah != 0 and s.ah != s.al + 1):
            raise fmt()
    elif f.process == 'lossless':
        if s.se != 0 or s.ah != 0 or s.ss > 7:
            raise fmt()
    else:
        if s.se == 0:
            s.se = 63
        if s.ss != 0 or s.se != 63 or s.ah or s.al:
            raise fmt()
    return s


# ---- tables


def parse_dqt(r):
    """the tables in block order, by their destinations"""
    left = r.length() - 2
    new = {}
    while left:
        b = r.u8()
        if b >> 4 > 1 or b & 15 > 3:
            raise fmt()
        size = 64 * (1 + (b >> 4))
        if left < 1 + size:
            raise fmt()
        vals = [r.u16() if b >> 4 else r.u8() for _ in range(64)]
        if 0 in vals:
            raise fmt()
        q = [0] * 64
        for z, v in enumerate(vals):
            q[ZIGZAG[z]] = v
        new[b & 15] = q
        left -= 1 + size
    return new


def parse_dht(r, greatest):
    """the bytes of class and destination, each with its table"""
    left = r.length() - 2
    new = []
    while left > 17:
        b = r.u8()
        if b >> 4 > 1 or b & 15 > greatest:
            raise fmt()
        counts = list(r.take(16))
        n = sum(counts)
        if not 1 <= n <= 256 or n > left - 17:
            raise fmt()
        vals = r.take(n)
        t = codes(counts, vals)
        if t is None:
            raise fmt()
        new.append((b, t))
        left -= 17 + n
    if left:
        raise fmt()
    return new


# ---- scans


def dc_first(t, table, pred, al):
    s, _ = t.symbol(table)
    if s > 11:
        raise fmt(True)
    d = extend(t.bits(s), s) if s else 0
    return i16(pred + d)


def ac_first(t, table, block, ss, se, al, run):
    place = max(ss, 1)
    if se == 0:
        return run
    if run > 0:
        return run - 1
    while place <= se:
        sym, n = t.symbol(table)
        r, s = sym >> 4, sym & 15
        if s == 0:
            if r == 15:
                place += 16
            else:
                return (1 << r) - 1 + t.bits(r)
        elif place + r <= se:
            block[place + r] = i16(extend(t.bits(s), s) << al)
            place += r + 1
        else:
            if n + s <= 8:
                t.bits(s)
            break
    return 0


def correct(t, block, place, al):
    if t.bits(1):
        c = block[place]
        if not c >> al & 1:
            c += (1 << al) if c > 0 else -(1 << al)
            if not -32768 <= c <= 32767:
                raise fmt(True)
            block[place] = c


def ac_refine(t, table, block, ss, se, al, run):
    place = ss
    if run > 0:
        for i in range(place, se + 1):
            if block[i]:
                correct(t, block, i, al)
        return run - 1
    while place <= se:
        sym, _ = t.symbol(table)
        r, s = sym >> 4, sym & 15
        if s > 1:
            raise fmt(True)
        value = 0
        end_of_band = s == 0 and r < 15
        if s == 1:
            value = (1 << al) if t.bits(1) else -(1 << al)
        if end_of_band:
            new_run = (1 << r) - 1 + t.bits(r)
            last = se
        else:
            zeros = [i for i in range(place, se + 1) if block[i] == 0]
            last = zeros[r] if len(zeros) > r else se
        for i in range(place, last + 1):
            if block[i]:
                correct(t, block, i, al)
        if s == 1:
            block[last] = value
        if end_of_band:
            return new_run
        place = last + 1
    return 0


def intervals(total, ri):
    if ri == 0:
        return [total]
    out = []
    while total > ri:
        out.append(ri)
        total -= ri
    return out + [total]


def run_scan(r, mcus, ri, start, unit, stops=False, read=None):
    """cuts the MCUs into intervals; unit(text, mcu, state); returns the pending marker or None. The
    MCUs that were read go to the list read."""
    number, at = 0, 0
    parts = intervals(len(mcus), ri)
    for j, n in enumerate(parts):
        t = Text(r.b, r.p, stops)
        state = start()
        for m in mcus[at : at + n]:
            unit(t, m, state)
            if read is not None:
                read.append(m)
        at += n
        marker, r.p = t.finish()
        if j + 1 < len(parts):
            if marker != 0xD0 + number % 8:
                raise fmt(True)
            number += 1
    while marker is not None and 0xD0 <= marker <= 0xD7:
        try:
            marker = r.marker()
        except Refused as e:
            raise Refused(e.kind, True)
    return marker


def own_blocks(f, c):
    """how many blocks a component has across and down by its own size"""
    return (
        ceil_div(ceil_div(f.w * c.h, f.hmax), 8),
        ceil_div(ceil_div(f.h * c.v, f.vmax), 8),
    )


def block_mcus(f, s):
    """the MCUs of a scan, of each the blocks in turn, with the component's place in the scan, row
    and column; and how many MCUs stand side by side"""
    if len(s.comps) == 1:
        wide, high = own_blocks(f, f.comps[s.comps[0]])
        return [[(0, y, x)] for y in range(high) for x in range(wide)], wide
    mcus = [
        [
            (j, y * f.comps[i].v + v, x * f.comps[i].h + h)
            for j, i in enumerate(s.comps)
            for v in range(f.comps[i].v)
            for h in range(f.comps[i].h)
        ]
        for y in range(f.mcus[1])
        for x in range(f.mcus[0])
    ]
    return mcus, f.mcus[0]


def dct_scan(r, f, s, dc, ac, ri, blocks, stops, b):
    """blocks: of each component of the scan the blocks held. Each is replaced as soon as all of it
    is read, so that after a fault those before it are there. b.rows gets the rows of the picture
    that need nothing of the MCUs that are lacking, nor of others in their row, if some are."""
    mcus, wide = block_mcus(f, s)

    def start():
        return {'pred': [0] * len(s.comps), 'run': 0}

    def unit(t, mcu, st):
        for j, y, x in mcu:
            i = s.comps[j]
            at = y * f.mcus[0] * f.comps[i].h + x
            block = list(blocks[i][at])
            if s.ah == 0:
                if s.ss == 0:
                    st['pred'][j] = dc_first(t, dc[s.dc[j]], st['pred'][j], s.al)
                    block[0] = i16(st['pred'][j] << s.al)
                if s.se > 0:
                    st['run'] = ac_first(t, ac[s.ac[j]], block, s.ss, s.se, s.al, st['run'])
            else:
                if s.ss == 0:
                    block[0] = i16(block[0] | t.bits(1) << s.al)
                else:
                    st['run'] = ac_refine(t, ac[s.ac[j]], block, s.ss, s.se, s.al, st['run'])
            blocks[i][at] = block

    read = []
    if b.read is None:
        b.read = read
    try:
        return run_scan(r, mcus, ri, start, unit, stops, read)
    except Refused:
        if len(read) < len(mcus):
            each = f.comps[s.comps[0]].v if len(s.comps) == 1 else 1
            size = f.output(b.scale)
            b.rows = min(len(read) // wide * b.scale * f.vmax // each, size[1])
            # the last of them is blended with the line below
            if any(rule(f.comps[i], f.hmax, f.vmax, *size) in ('H1V2', 'H2V2') for i in s.comps):
                b.rows = max(b.rows - 1, 0)
        raise


def predict(ra, rb, rc, sel):
    return [
        0,
        ra,
        rb,
        rc,
        ra + rb - rc,
        ra + ((rb - rc) >> 1),
        rb + ((ra - rc) >> 1),
        (ra + rb) // 2,
    ][sel]


def sample_mcus(f, s, settings):
    """how many MCUs a lossless scan has across and down, and of each component how many samples: an
    MCU's across and down, and all across and down"""
    if settings.equal_factors:
        return f.w, f.h, {j: (1, 1, f.w, f.h) for j in range(len(s.comps))}
    if len(s.comps) == 1:
        c = f.comps[s.comps[0]]
        cols, rows = ceil_div(f.w * c.h, f.hmax), ceil_div(f.h * c.v, f.vmax)
        return cols, rows, {0: (1, 1, cols, rows)}
    cols, rows = ceil_div(f.w, f.hmax), ceil_div(f.h, f.vmax)
    grid = {
        j: (f.comps[i].h, f.comps[i].v, cols * f.comps[i].h, rows * f.comps[i].v)
        for j, i in enumerate(s.comps)
    }
    return cols, rows, grid


def blocks_coded(f, s, settings):
    """how many blocks a scan codes, MCU by MCU; eight samples of a lossless one count as a block"""
    if f.process != 'lossless':
        comps = [f.comps[i] for i in s.comps]
        if len(comps) == 1:
            wide, high = own_blocks(f, comps[0])
            return wide * high
        return f.mcus[0] * f.mcus[1] * sum(c.h * c.v for c in comps)
    _, _, grid = sample_mcus(f, s, settings)
    return ceil_div(sum(wide * high for _, _, wide, high in grid.values()), 8)


def lossless_scan(r, f, s, dc, ri, settings, b, stops):
    """b.planes gets the samples of the components; after a fault those of the rows of MCUs that are
    whole, and below them the samples from before the scan, or mid-grey"""
    cols, rows, grid = sample_mcus(f, s, settings)
    if 0 < ri < cols * rows and ri % cols:
        raise fmt(True)
    mcus = [(x, y) for y in range(rows) for x in range(cols)]
    planes = {j: [0] * (g[2] * g[3]) for j, g in grid.items()}
    whole = [0]

    def start():
        return {'first': {}}

    def unit(t, mcu, st):
        x, y = mcu
        whole[0] = y
        for j in range(len(s.comps)):
            h, v, wide, _ = grid[j]
            plane = planes[j]
            for yy in range(y * v, y * v + v):
                st['first'].setdefault(j, yy)
                for xx in range(x * h, x * h + h):
                    cat, _ = t.symbol(dc[s.dc[j]])
                    if cat > 16:
                        raise fmt(True)
                    d = 32768 if cat == 16 else (extend(t.bits(cat), cat) if cat else 0)
                    ra = plane[yy * wide + xx - 1] if xx else 0
                    if yy == st['first'][j]:
                        p = ra if xx else 1 << (f.precision - s.al - 1)
                    elif xx == 0:
                        p = plane[(yy - 1) * wide]
                    else:
                        p = predict(
                            ra, plane[(yy - 1) * wide + xx], plane[(yy - 1) * wide + xx - 1], s.ss
                        )
                    plane[yy * wide + xx] = (p + d) & 0xFFFF
        if x == cols - 1:
            whole[0] = y + 1

    try:
        return run_scan(r, mcus, ri, start, unit, stops)
    except Refused:
        each = f.comps[s.comps[0]].v if len(s.comps) == 1 else 1
        b.rows = whole[0] if settings.equal_factors else whole[0] * f.vmax // each
        raise
    finally:
        for j, i in enumerate(s.comps):
            c = f.comps[i]
            _, v, wide, _ = grid[j]
            if settings.equal_factors:
                cw, ch = f.w, f.h
            else:
                cw, ch = ceil_div(f.w * c.h, f.hmax), ceil_div(f.h * c.v, f.vmax)
            own = planes[j]
            lines = min(ch, whole[0] * v)
            samples = [own[y * wide + x] << s.al & 0xFFFF for y in range(lines) for x in range(cw)]
            grey = [1 << (f.precision - 1)] * (cw * ch)
            before = b.planes[i][2] if i in b.planes else grey
            b.planes[i] = (cw, ch, samples + before[len(samples) :])


# ---- samples and pixels

M_TOP = [
    [4096, 5683, 5352, 4816, 4096, 3219, 2217, 1131],
    [4096, 4816, 2217, -1129, -4096, -5681, -5350, -3218],
    [4096, 3219, -2217, -5681, -4096, 1132, 5350, 4816],
    [4096, 1131, -5352, -3218, 4096, 4816, -2217, -5680],
]
M = M_TOP + [[-v if i % 2 else v for i, v in enumerate(row)] for row in reversed(M_TOP)]


def i32(x):
    x &= 0xFFFFFFFF
    return x - (1 << 32) if x >= 1 << 31 else x


def clamp(x):
    return max(0, min(255, x))


def idct8(c, q):
    cols = []
    for x in range(8):
        s = [c[8 * k + x] * q[8 * k + x] for k in range(8)]
        if all(c[8 * k + x] == 0 for k in range(1, 8)):
            cols.append([i32(4 * s[0])] * 8)
        else:
            cols.append([i32(sum(M[y][k] * s[k] for k in range(8)) + 512) >> 10 for y in range(8)])
    return [
        clamp(i32(sum(M[x][k] * cols[k][y] for k in range(8)) + 16842752) >> 17)
        for y in range(8)
        for x in range(8)
    ]


def idct4(c, q):
    cols = []
    for x in range(4):
        s = [c[8 * k + x] * q[8 * k + x] for k in range(4)]
        x0, x2 = i32((s[0] + s[2]) << 2), i32((s[0] - s[2]) << 2)
        t2, t0 = (
            i32(5352 * s[1] + 2217 * s[3] + 512) >> 10,
            i32(2217 * s[1] - 5350 * s[3] + 512) >> 10,
        )
        cols.append([i32(x0 + t2), i32(x2 + t0), i32(x2 - t0), i32(x0 - t2)])
    out = []
    for y in range(4):
        s = [cols[k][y] for k in range(4)]
        x0, x2 = ((s[0] + s[2]) << 12) + 16842752, ((s[0] - s[2]) << 12) + 16842752
        t2, t0 = 5352 * s[1] + 2217 * s[3], 2217 * s[1] - 5350 * s[3]
        out += [clamp(i32(v) >> 17) for v in (x0 + t2, x2 + t0, x2 - t0, x0 - t2)]
    return out


def idct2(c, q):
    a, b, d, e = (c[i] * q[i] for i in (0, 1, 8, 9))
    return [
        clamp(i32(v + 1028) >> 3)
        for v in (a + d + b + e, a + d - b - e, a - d + b - e, a - d - b + e)
    ]


def idct1(c, q):
    v = i32(c[0] * q[0] + 1024)
    return [clamp(v // 8 if v >= 0 else -(-v // 8))]


IDCT = {8: idct8, 4: idct4, 2: idct2, 1: idct1}


def plane_of(f, i, blocks, q, s):
    """the samples of component i as a function of coordinates"""
    c = f.comps[i]
    cache = {}

    def p(x, y):
        at = (y // s) * f.mcus[0] * c.h + x // s
        if at not in cache:
            block = [0] * 64
            for z, v in enumerate(blocks[at]):
                block[ZIGZAG[z]] = v
            cache[at] = IDCT[s](block, q)
        return cache[at][(y % s) * s + x % s]

    return p


def upsampled(name, p, n, m, ratio, x, r):
    if name == 'H1V1':
        return p(x, r)
    if name == 'H2V1':
        if n == 1:
            return p(0, r)
        i = x // 2
        if x == 0:
            return p(0, r)
        if x == 2 * n - 1:
            return p(n - 1, r)
        return (3 * p(i, r) + p(i - 1 if x % 2 == 0 else i + 1, r) + 2) >> 2
    if name == 'Generic':
        return p(x // ratio[0], r // ratio[1])
    near = r // 2
    far = max(near - 1, 0) if r % 2 == 0 else min(near + 1, m - 1)
    if name == 'H1V2':
        return (3 * p(x, near) + p(x, far) + 2) >> 2

    def t(i):
        return 3 * p(i, near) + p(i, far)

    if n == 1 or x == 0:
        return (t(0) + 2) >> 2
    if x == 2 * n - 1:
        return (t(n - 1) + 2) >> 2
    if x % 2 == 1:
        i = (x + 1) // 2
        return (3 * t(i - 1) + t(i) + 8) >> 4
    i = x // 2
    return (3 * t(i) + t(i - 1) + 8) >> 4


def ycc(y, cb, cr):
    yy, u, v = (y << 20) + (1 << 19), cb - 128, cr - 128
    return (
        clamp((yy + 1470104 * v) >> 20),
        clamp((yy - 360857 * u - 748830 * v) >> 20),
        clamp((yy + 1858077 * u) >> 20),
    )


def choose(f, st, settings):
    if settings.transform is not None:
        return settings.transform
    if len(f.comps) == 3:
        ids = tuple(c.id for c in f.comps)
        known = {
            (1, 2, 3): 'YCbCr',
            (1, 34, 35): 'JcsBgYcc',
            (82, 71, 66): 'RGB',
            (114, 103, 98): 'JcsBgRgb',
        }
        if ids in known:
            return known[ids]
        if st['jfif']:
            return 'YCbCr'
    if st['adobe'] is not None:
        return {0: 'RGB' if len(f.comps) == 3 else 'CMYK', 1: 'YCbCr', 2: 'YCCK'}[st['adobe']]
    return 'YCbCr' if len(f.comps) == 3 else 'CMYK'


def conversion(n, transform):
    if transform in ('JcsBgYcc', 'JcsBgRgb'):
        raise unsupported('ColorTransform(%s)' % transform)
    fits = {3: ('None', 'RGB', 'YCbCr'), 4: ('None', 'CMYK', 'YCCK')}[n]
    if transform not in fits:
        raise fmt()
    return transform


def picture(f, planes, s, conv):
    w, h = f.output(s)
    sizes = f.sizes(s)
    if len(f.comps) == 1:
        return bytes(planes[0](x, y) for y in range(h) for x in range(w))
    names = [rule(c, f.hmax, f.vmax, w, h) for c in f.comps]
    out = bytearray()
    for r in range(h):
        rows = []
        for i, c in enumerate(f.comps):
            n, m = sizes[i]
            ratio = (f.hmax // c.h, f.vmax // c.v)
            rows.append([upsampled(names[i], planes[i], n, m, ratio, x, r) for x in range(w)])
        if conv == 'None':
            for row in rows:
                out += bytes(row)
            continue
        for px in zip(*rows):
            if conv == 'RGB':
                out += bytes(px)
            elif conv == 'YCbCr':
                out += bytes(ycc(*px))
            elif conv == 'CMYK':
                out += bytes(255 - v for v in px)
            else:
                out += bytes(ycc(*px[:3])) + bytes([255 - px[3]])
    return bytes(out)


def luma_of(f, planes, s, transform):
    """The first component of several, if it is luma and has a sample for each pixel."""
    w, h = f.output(s)
    if transform != 'YCbCr' or f.sizes(s)[0] != (w, h):
        raise fmt()
    return bytes(planes[0](x, y) for y in range(h) for x in range(w))


def samples_a_pixel(f, settings):
    """One of each component, or the luma alone; no lossless picture has luma."""
    return 1 if settings.luma and f.process != 'lossless' else len(f.comps)


def lossless_picture(f, planes, settings):
    out = bytearray()
    for y in range(f.h):
        for x in range(f.w):
            for i, c in enumerate(f.comps):
                cw, ch, p = planes[i]
                if settings.equal_factors:
                    v = p[y * cw + x]
                else:
                    v = p[y * c.v // f.vmax * cw + x * c.h // f.hmax]
                out += bytes([v & 255]) if f.precision <= 8 else bytes([v & 255, v >> 8])
    return bytes(out)


def info(f, s, settings=None):
    w, h = f.output(s)
    count = samples_a_pixel(f, settings or Settings())
    return w, h, {1: 'L8' if f.precision <= 8 else 'L16', 3: 'RGB24', 4: 'CMYK32'}[count]


def pick_scale(f, want):
    """The scale of a frame for a requested (width, height), or for one of 1, 2, 4 and 8 itself."""
    if want is None or f.process == 'lossless':
        return 8
    if isinstance(want, int):
        return want
    for s in (1, 2, 4):
        if ceil_div(f.w * s, 8) >= want[0] or ceil_div(f.h * s, 8) >= want[1]:
            return s
    return 8


# ---- the whole


def icc_profile(chunks):
    n = len(chunks)
    if (
        not 1 <= n <= 254
        or any(c[1] != n for c in chunks)
        or sorted(c[0] for c in chunks) != list(range(1, n + 1))
    ):
        return None
    return b''.join(c[2] for c in sorted(chunks))


def parse_app(r, n, st):
    left = r.length() - 2
    if (
        n in (1,)
        or (n == 0 and left >= 5)
        or (n == 2 and left > 14)
        or (n == 13 and left >= 14)
        or (n == 14 and left >= 12)
    ):
        head = {0: 5, 1: left, 2: 14, 13: 14, 14: 12}[n]
        data = r.take(head)
        left -= head
        if n == 0 and data == b'JFIF\0':
            found = ('jfif', True)
        elif n == 0 and data == b'AVI1\0':
            found = ('avi', True)
        elif n == 1 and data[:6] == b'Exif\0\0':
            found = ('exif', data[6:])
        elif n == 1 and data[:29] == b'http://ns.adobe.com/xap/1.0/\0':
            found = ('xmp', data[29:])
        elif n == 2 and data[:12] == b'ICC_PROFILE\0':
            found = ('icc', st['icc'] + [(data[12], data[13], r.take(left))])
            left = 0
        elif n == 14 and data[:6] == b'Adobe\0':
            if data[11] > 2:
                raise fmt()
            found = ('adobe', data[11])
        else:
            found = None
        r.take(left)
        if found:
            st[found[0]] = found[1]
    else:
        r.take(left)


class Brought:
    """What a stream has brought so far: the frame and its scale, the quantization tables, the
    blocks that a progressive frame holds between scans, the planes that are decided, and how many
    rows a scan with a fault makes whole. Of the first scan its components, what the segments before
    it say, and the MCUs that were read."""

    def __init__(self):
        self.frame, self.scale, self.qt = None, 8, [None] * 4
        self.held, self.finished, self.planes, self.rows = None, {}, {}, None
        self.first, self.said, self.read = None, None, None

    def zero_blocks(self, i):
        c = self.frame.comps[i]
        return [[0] * 64 for _ in range(self.frame.mcus[0] * c.h * self.frame.mcus[1] * c.v)]

    def blocks_for(self, s):
        """the blocks that a scan is read on, by component"""
        if self.frame.process != 'prog':
            return {i: self.zero_blocks(i) for i in s.comps}
        if self.held is None:
            self.held = [self.zero_blocks(i) for i in range(len(self.frame.comps))]
        return self.held

    def finish(self, s, blocks):
        """decides the planes of the components of which a scan was the last that is needed"""
        if s.al:
            return
        for i in s.comps:
            was = len(self.finished.get(i, ())) == 64
            self.finished[i] = self.finished.get(i, frozenset()) | set(range(s.ss, s.se + 1))
            if len(self.finished[i]) == 64 and not was:
                self.planes[i] = ([list(b) for b in blocks[i]], self.qt[self.frame.comps[i].tq])

    def end(self):
        """decides the planes of blocks held, and tells whether each component has one"""
        if self.held is not None:
            for i, c in enumerate(self.frame.comps):
                if i not in self.planes and self.qt[c.tq] is not None:
                    self.planes[i] = (self.held[i], self.qt[c.tq])
        return len(self.planes) == len(self.frame.comps)

    def complete(self):
        """gives each component that lacks a plane one of zeros, which is of the middle grey"""
        f = self.frame
        for i, c in enumerate(f.comps):
            if i in self.planes:
                continue
            if f.process == 'lossless':
                cw, ch = ceil_div(f.w * c.h, f.hmax), ceil_div(f.h * c.v, f.vmax)
                self.planes[i] = (cw, ch, [1 << (f.precision - 1)] * (cw * ch))
            else:
                self.planes[i] = (self.zero_blocks(i), [1] * 64)

    def picture(self, settings, st):
        """the picture of planes that are all there"""
        f, s8 = self.frame, self.scale
        shape = info(f, s8, settings)
        if f.process == 'lossless':
            return ('ok', *shape, lossless_picture(f, self.planes, settings))
        planes = [plane_of(f, i, *self.planes[i], s8) for i in range(len(f.comps))]
        if settings.luma and len(f.comps) > 1:
            return ('ok', *shape, luma_of(f, planes, s8, choose(f, st, settings)))
        conv = conversion(len(f.comps), choose(f, st, settings)) if len(f.comps) > 1 else None
        return ('ok', *shape, picture(f, planes, s8, conv))

    def transform_by_rows(self, settings):
        """the transform by which the lines of a picture are made as its first scan is read, or None
        where they come at the end of the image: of a frame that isn't sequential, where the scan
        lacks a component, of the luma, above the limit, and where there is no such transform"""
        f = self.frame
        if self.first is None or f.process != 'seq' or len(self.first) != len(f.comps):
            return None
        try:
            self.check_limit(settings)
            transform = choose(f, self.said, settings)
            if len(f.comps) > 1:
                conversion(len(f.comps), transform)
        except Refused:
            return None
        return None if settings.luma else transform

    def lines_by_rows(self, settings):
        """the lines of the picture that are decided by the rows of MCUs that were read of the first
        scan, where lines are made as it is read: all of theirs, but for the last where it is blended
        with a line of the next row"""
        f, transform, read = self.frame, self.transform_by_rows(settings), self.read or []
        if transform is None or not read:
            return b''
        width, height = f.output(self.scale)
        if len(f.comps) == 1:
            wide, high = own_blocks(f, f.comps[0])
            rows = f.mcus[1] if len(read) == wide * high else len(read) // wide // f.comps[0].v
        else:
            rows = len(read) // f.mcus[0]
        lines = height
        if rows < f.mcus[1]:
            lines = min(height, rows * f.vmax * self.scale)
            rules = [rule(c, f.hmax, f.vmax, width, height) for c in f.comps]
            if 'H1V2' in rules or 'H2V2' in rules:
                lines = max(lines - 1, 0)
        planes = [plane_of(f, i, *self.planes[i], self.scale) for i in range(len(f.comps))]
        conv = conversion(len(f.comps), transform) if len(f.comps) > 1 else None
        return picture(f, planes, self.scale, conv)[: lines * width * len(f.comps)]

    def own_planes(self):
        """of each component its samples at its own size, line by line: (width, height, bytes)"""
        f, s8 = self.frame, self.scale
        for i, (w, h) in enumerate(f.sizes(s8)):
            if f.process == 'lossless':
                samples = self.planes[i][2]
            else:
                p = plane_of(f, i, *self.planes[i], s8)
                samples = [p(x, y) for y in range(h) for x in range(w)]
            size = 1 if f.precision <= 8 else 2
            yield w, h, b''.join(v.to_bytes(size, 'little') for v in samples)

    def check_limit(self, settings):
        w, h = self.frame.output(self.scale)
        if samples_a_pixel(self.frame, settings) * w * h > settings.limit:
            raise fmt()


def nothing_said(trace):
    st = {'jfif': False, 'avi': False, 'adobe': None, 'exif': None, 'xmp': None, 'icc': []}
    if trace is not None:
        trace['state'] = st
    return st


def meaning(data, settings=None, trace=None):
    settings, st, b = settings or Settings(), nothing_said(trace), Brought()
    try:
        read_segments(Bytes(data), settings, st, trace, b, False)
        b.check_limit(settings)
        if not b.end():
            raise fmt()
        return b.picture(settings, st)
    except Refused as e:
        return ('err', e.kind, e.in_scan)


def lines_of(data, settings=None, trace=None):
    """What `Rows` must give: what meaning gives, and in a refusal the lines before it. They
    come as the first scan is read, where it has all components, so that a segment after it that
    would choose another transform is a fault."""
    settings, st, b = settings or Settings(), nothing_said(trace), Brought()
    try:
        read_segments(Bytes(data), settings, st, trace, b, False)
        transform = b.transform_by_rows(settings)
        if transform and len(b.frame.comps) > 1 and choose(b.frame, st, settings) != transform:
            raise fmt()
        b.check_limit(settings)
        if not b.end():
            raise fmt()
        return b.picture(settings, st)
    except Refused as e:
        return ('err', e.kind, e.in_scan, b.lines_by_rows(settings))


def planes_of(data, settings=None, trace=None):
    """The planes of a picture, each as (width, height, bytes) with two bytes a sample above 8 bits,
    the lower first: no sample is upsampled, no colour converted, and the limit counts the samples
    of all planes. Neither the transform nor the luma of the settings makes a difference."""
    settings, st, b = settings or Settings(), nothing_said(trace), Brought()
    try:
        read_segments(Bytes(data), settings, st, trace, b, False)
        if sum(w * h for w, h in b.frame.sizes(b.scale)) > settings.limit:
            raise fmt()
        if not b.end():
            raise fmt()
        return 'ok', tuple(b.own_planes())
    except Refused as e:
        return 'err', e.kind, e.in_scan


def shown(data, settings=None, trace=None):
    """What a stream with a fault shows. The blocks of a scan, or the rows of MCUs of a lossless one,
    count up to the first that lacks a bit or has a fault, where no zero bits follow the data; of any
    other segment nothing counts unless all of it is there. After the picture and the fault stands
    how many rows, from the top, come of rows of MCUs that each scan has wholly: none where a
    component has no scan that the picture needs."""
    settings, st, b, fault = settings or Settings(), nothing_said(trace), Brought(), None
    try:
        read_segments(Bytes(data), settings, st, trace, b, True)
    except Refused as e:
        fault = e.kind
    if b.frame is None:
        return ('err', fault)
    try:
        b.check_limit(settings)
        height = info(b.frame, b.scale)[1]
        rows = height if b.rows is None else min(b.rows, height)
        if not b.end():
            fault, rows = fault or 'Format', 0
        b.complete()
        return b.picture(settings, st) + (fault, rows)
    except Refused as e:
        return ('err', e.kind)


def read_segments(r, settings, st, trace, b, is_partial):
    """reads up to the end of the image or the first fault, and notes in b and st what there is"""
    if r.u8() != 0xFF:
        raise fmt()
    if r.u8() != 0xD8:
        raise fmt()
    f, ri, scans = None, 0, 0
    left = settings.max_blocks
    dc, ac = [None] * 4, [None] * 4
    pending, previous = None, 0xD8
    while True:
        m, pending = (pending, None) if pending is not None else (r.marker(), None)
        if 0xC0 <= m <= 0xCF and m not in (0xC4, 0xC8, 0xCC):
            if f is not None:
                raise unsupported('Hierarchical')
            f = parse_sof(r, m - 0xC0)
            check_frame(f)
            b.frame, b.scale = f, pick_scale(f, settings.scale)
            if trace is not None:
                trace['info'] = info(f, b.scale, settings)
                trace['frame'], trace['header'] = f, (r.p, dict(st))
        elif m == 0xDA:
            if f is None:
                raise fmt()
            s = parse_sos(r, f)
            if scans == 0:
                b.first, b.said = s.comps, dict(st)
            if left is not None:
                left -= blocks_coded(f, s, settings)
                if left < 0:
                    if trace is not None:
                        trace['exceeded'] = True
                    raise fmt()
            if f.process == 'lossless':
                if any(dc[t] is None for t in s.dc):
                    raise fmt(True)
                pending = lossless_scan(r, f, s, dc, ri, settings, b, is_partial)
            else:
                if st['avi']:
                    ddc, dac = default_tables()
                    for t in (0, 1):
                        if t in s.dc and dc[t] is None:
                            dc[t] = ddc[t]
                        if t in s.ac and ac[t] is None:
                            ac[t] = dac[t]
                if any(b.qt[f.comps[i].tq] is None for i in s.comps):
                    raise fmt(True)
                if s.ss == 0 and any(dc[t] is None for t in s.dc):
                    raise fmt(True)
                if s.se > 0 and any(ac[t] is None for t in s.ac):
                    raise fmt(True)
                blocks = b.blocks_for(s)
                try:
                    pending = dct_scan(r, f, s, dc, ac, ri, blocks, is_partial, b)
                finally:
                    # (of a scan that has a fault the blocks before it count)
                    b.finish(s, blocks)
            scans += 1
        elif m == 0xDB:
            for t, q in parse_dqt(r).items():
                b.qt[t] = q
        elif m == 0xC4:
            for place, t in parse_dht(r, 1 if f is not None and f.baseline else 3):
                (ac if place >> 4 else dc)[place & 15] = t
        elif m == 0xCC:
            raise unsupported('ArithmeticEntropyCoding')
        elif m == 0xDD:
            if r.length() != 4:
                raise fmt()
            ri = r.u16()
        elif m == 0xFE:
            r.take(r.length() - 2)
        elif 0xE0 <= m <= 0xEF:
            parse_app(r, m - 0xE0, st)
        elif 0xD0 <= m <= 0xD7:
            if previous != 0xDA:
                raise fmt()
        elif m == 0xDC:
            if previous != 0xDA or scans != 1:
                raise fmt()
            raise unsupported('DNL')
        elif m in (0xDE, 0xDF):
            raise unsupported('Hierarchical')
        elif m == 0xD9:
            break
        else:
            raise fmt()
        previous = m
    if f is None:
        raise fmt()
    if trace is not None:
        trace['end'] = r.p


def main():
    data, is_partial = sys.stdin.buffer.read(), sys.argv[1:] == ['--partial']
    got = shown(data) if is_partial else meaning(data)
    if got[0] == 'err':
        in_scan = not is_partial and got[2]
        print('model: %s%s' % (got[1], ' (in a scan)' if in_scan else ''), file=sys.stderr)
        return 1
    sys.stdout.buffer.write(b'%d %d %s\n' % (got[1], got[2], got[3].encode()) + got[4])
    if is_partial:
        print('model: fault %s, rows %d' % (got[5] or 'none', got[6]), file=sys.stderr)
    return 0


if __name__ == '__main__':
    sys.exit(main())
