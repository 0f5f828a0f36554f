#!/usr/bin/env python3
"""Judges a stream by the rules of T.81 alone: what its tables and clauses say with "shall".

judge(bytes) -> Verdict

A reader that takes nothing which T.81 doesn't define. It isn't a decoder, and knows nothing of the
choices of this one: of each stream it says which clauses it departs from, and of which kind each
departure is:

wider        T.81 doesn't allow it, and what is meant is plain all the same
range        no samples have such coefficients
open         T.81 doesn't say which picture it is: bits are unsent, or a component was sent twice
surplus      bytes of data are left before a marker
series       another image follows, or its start
abbreviated  no Huffman tables are there, so they are to be known from elsewhere
broken       what is meant can't be told from there on
pictureless  nothing gives a picture's size, so that there is none to show

strict.py < JPEG     prints the verdict on a stream
"""
import collections
import sys

import model
from model import ZIGZAG, ceil_div, extend

Departure = collections.namedtuple('Departure', 'kind section text')

PROCESSES = {0: 'baseline', 1: 'extended', 2: 'progressive', 3: 'lossless'}
# Samples that lie further than this from the middle of their range come of no picture: twice the
# range and a half of it, for what quantization adds.
FURTHEST = 384


class Stopped(Exception):
    """Ends reading where no more can be told."""


class Verdict:
    """What a stream is by T.81: its departures, its frame, and what its scans had."""

    def __init__(self):
        self.departures, self.frame, self.process = [], None, None
        self.end = None  # the offset after EOI
        self.edits = {}  # the bytes that a strict writer has instead, by their offsets
        self.facts = set()
        self.unread = None  # a legal process that isn't read here

    def kinds(self):
        return {departure.kind for departure in self.departures}

    def is_legal(self):
        return not self.departures


class Table:
    """A Huffman table: its codes, its class and its greatest value."""

    def __init__(self, counts, values):
        self.codes = model.codes(counts, values)
        self.values = values
        self.has_all_ones = sum(n << (15 - at) for at, n in enumerate(counts)) == 1 << 16


class Data:
    """The entropy-coded data from an offset to the marker after them (B.1.1.5)."""

    def __init__(self, stream, place):
        self.bytes, self.places, self.at = [], [], 0
        while place < len(stream):
            if stream[place] == 0xFF:
                if stream[place + 1 : place + 2] != b'\0':
                    break
                self.bytes.append(0xFF)
                self.places.append(place)
                place += 2
                continue
            self.bytes.append(stream[place])
            self.places.append(place)
            place += 1
        self.end = place

    def bit(self):
        """F.2.2.5: a marker where a bit is wanted is an error."""
        if self.at >= 8 * len(self.bytes):
            raise Stopped('F.2.2.5', 'the data end before the last block or sample')
        bit = self.bytes[self.at >> 3] >> (7 - (self.at & 7)) & 1
        self.at += 1
        return bit

    def bits(self, count):
        value = 0
        for _ in range(count):
            value = value << 1 | self.bit()
        return value

    def symbol(self, table):
        code = 0
        for length in range(1, 17):
            code = code << 1 | self.bit()
            if (length, code) in table.codes:
                return table.codes[length, code]
        raise Stopped('F.2.2.3', 'bits that are no code of their table')


class Component:
    """A component: its header, its blocks or samples, and what scans have sent of it."""

    def __init__(self, identifier, factors, table):
        self.identifier, self.table = identifier, table
        self.h, self.v = factors >> 4, factors & 15
        self.blocks, self.levels, self.scans = {}, {}, 0
        self.quantization = None


class Reader:
    """Reads a stream, and notes where it departs from T.81."""

    def __init__(self, stream):
        self.stream, self.place, self.verdict = stream, 0, Verdict()
        self.quantization, self.tables, self.interval = {}, {}, 0
        self.has_expanded = False

    def note(self, kind, section, text):
        departure = Departure(kind, section, text)
        if departure not in self.verdict.departures:
            self.verdict.departures.append(departure)

    def wider(self, section, text):
        self.note('wider', section, text)

    def take(self, count):
        if self.place + count > len(self.stream):
            raise Stopped('B.2.1', 'the stream ends before EOI')
        self.place += count
        return self.stream[self.place - count : self.place]

    def marker(self):
        """B.1.1.2: a marker, with fill bytes before it."""
        start = self.place
        while self.place < len(self.stream) and (
            self.stream[self.place] != 0xFF
            or self.stream[self.place + 1 : self.place + 2] in (b'\0', b'\xff')
        ):
            if self.stream[self.place] != 0xFF or self.stream[self.place + 1] == 0:
                start = None
            self.place += 1
        code = self.take(2)[1]
        if start is None:
            self.wider('B.1.1.4', 'bytes between two segments that belong to neither')
        return code

    def segment(self):
        length = int.from_bytes(self.take(2), 'big')
        if length < 2:
            raise Stopped('B.1.1.4', 'a length of less than the two bytes that give it')
        return self.take(length - 2)

    # ---- tables

    def read_quantization(self, data):
        """B.2.4.1"""
        if not data:
            self.wider('B.2.4.1', 'a DQT segment without a table')
        while data:
            precision, place = data[0] >> 4, data[0] & 15
            size = 64 << precision if precision <= 1 else 0
            if precision > 1 or place > 3 or len(data) < 1 + size:
                raise Stopped('B.2.4.1', 'a quantization table that B.2.4.1 does not have')
            step = 1 + precision
            values = [
                int.from_bytes(data[at : at + step], 'big') for at in range(1, 1 + size, step)
            ]
            if 0 in values:
                raise Stopped('B.2.4.1', 'a quantization table with a 0')
            self.check_respecified(place, values)
            self.quantization[place] = values, precision
            data = data[1 + size :]

    def check_respecified(self, place, values):
        """B.2.2: a destination keeps its table until all scans of its components are done."""
        frame = self.verdict.frame
        for component in frame.components if frame else ():
            if component.table == place and component.quantization not in (None, values):
                self.verdict.facts.add('respecified')

    def read_codes(self, data):
        """B.2.4.2 and Annex C"""
        if not data:
            self.wider('B.2.4.2', 'a DHT segment without a table')
        while data:
            if len(data) < 17 or data[0] >> 4 > 1 or data[0] & 15 > 3:
                raise Stopped('B.2.4.2', 'a Huffman table that B.2.4.2 does not have')
            counts = list(data[1:17])
            values = list(data[17 : 17 + sum(counts)])
            if sum(counts) > 256 or len(values) < sum(counts):
                raise Stopped('B.2.4.2', 'a Huffman table with too few or too many values')
            table = Table(counts, values)
            if table.codes is None:
                raise Stopped('C.2', 'more codes than their lengths have room for')
            if not values:
                self.wider('B.2.4.2', 'a Huffman table without a code')
            self.tables[data[0]] = table
            if self.verdict.process == 'baseline' and data[0] & 15 > 1:
                self.wider('B.2.4.2', 'a Huffman table 2 or 3 in a baseline frame')
            data = data[17 + len(values) :]

    # ---- frame and scan headers

    def read_frame(self, code, data):
        """B.2.2, Table B.2"""
        if self.verdict.frame or self.verdict.unread:
            raise Stopped('B.2.1', 'a second frame without a DHP segment')
        if len(data) < 6:
            raise Stopped('B.2.2', 'a frame header of the wrong length')
        frame = self.verdict.frame = model.Frame()
        frame.precision, count = data[0], data[5]
        frame.h, frame.w = int.from_bytes(data[1:3], 'big'), int.from_bytes(data[3:5], 'big')
        frame.components = []
        if frame.w == 0 or count == 0:
            self.note('pictureless', 'B.2.2', 'a frame without a column or a component')
            raise Stopped('B.2.2', 'a frame without a column or a component')
        if len(data) != 6 + 3 * count:
            raise Stopped('B.2.2', 'a frame header of the wrong length')
        if code > 3:
            self.verdict.unread = 'hierarchical' if code in (5, 6, 7, 13, 14, 15) else 'arithmetic'
            raise Stopped('', '')
        self.verdict.process = frame.process = PROCESSES[code]
        self.check_frame(frame, [data[6 + 3 * at : 9 + 3 * at] for at in range(count)])

    def check_frame(self, frame, rows):
        process = self.verdict.process
        precisions = {'baseline': (8,), 'lossless': range(2, 17)}.get(process, (8, 12))
        if frame.precision not in precisions:
            raise Stopped('B.2.2', 'a precision that Table B.2 does not have')
        for identifier, factors, table in rows:
            component = Component(identifier, factors, table)
            if not 1 <= component.h <= 4 or not 1 <= component.v <= 4:
                raise Stopped('B.2.2', 'a sampling factor that is not 1 to 4')
            if table > (0 if process == 'lossless' else 3):
                raise Stopped('B.2.2', 'a quantization table that Table B.2 does not have')
            if any(other.identifier == identifier for other in frame.components):
                raise Stopped('B.2.2', 'two components with one identifier')
            frame.components.append(component)
        if process == 'progressive' and len(rows) > 4:
            raise Stopped('B.2.2', 'more than four components in a progressive frame')
        if frame.h == 0:
            raise Stopped('B.2.5', 'no number of lines, and none read here from DNL')
        frame.hmax = max(component.h for component in frame.components)
        frame.vmax = max(component.v for component in frame.components)

    def read_scan(self, data):
        """B.2.3, Table B.3, and the data after the header"""
        frame = self.verdict.frame
        if frame is None:
            raise Stopped('B.2.1', 'a scan before the frame header')
        if len(data) < 4 or not 1 <= data[0] <= 4 or len(data) != 4 + 2 * data[0]:
            raise Stopped('B.2.3', 'a scan header that Table B.3 does not have')
        scan = model.Scan()
        scan.members, places = [], []
        for at in range(data[0]):
            identifier, selectors = data[1 + 2 * at : 3 + 2 * at]
            found = [c for c in frame.components if c.identifier == identifier]
            if not found:
                raise Stopped('B.2.3', 'a component that the frame has not')
            places.append(frame.components.index(found[0]))
            scan.members.append((found[0], selectors >> 4, selectors & 15))
        if places != sorted(set(places)):
            raise Stopped('B.2.3', 'components out of the order of the frame')
        blocks = sum(c.h * c.v for c, _, _ in scan.members)
        if len(places) > 1 and blocks > 10:
            raise Stopped('B.2.3', 'an MCU of more than ten blocks')
        scan.first, scan.last, scan.high, scan.low = *data[-3:-1], data[-1] >> 4, data[-1] & 15
        self.check_selectors(scan)
        self.check_band(scan)
        if self.verdict.process == 'lossless':
            LosslessScan(self, scan).read()
        else:
            TransformScan(self, scan).read()
        for component, _, _ in scan.members:
            component.scans += 1

    def check_selectors(self, scan):
        most = 1 if self.verdict.process == 'baseline' else 3
        if any(dc > most or ac > most for _, dc, ac in scan.members):
            raise Stopped('B.2.3', 'an entropy coding table that Table B.3 does not have')
        if self.verdict.process == 'lossless' and any(ac for _, _, ac in scan.members):
            self.wider('B.2.3', 'an AC table in a lossless scan')

    def check_band(self, scan):
        """Table B.3: the band and the approximation"""
        process, band = self.verdict.process, (scan.first, scan.last)
        if process == 'lossless':
            if scan.first > 7 or scan.last or scan.high or scan.low >= self.verdict.frame.precision:
                raise Stopped('B.2.3', 'a predictor or a point transform that does not exist')
            if scan.first == 0:
                self.wider('H.1.2.1', 'selection 0, which is for differential frames')
        elif process == 'progressive':
            self.check_progression(scan)
        elif band == (0, 0) and (scan.high, scan.low) == (0, 0):
            self.wider('B.2.3', 'Se = 0 in a sequential scan')
            self.verdict.edits[self.place - 2] = scan.last = 63
        elif band != (0, 63) or scan.high or scan.low:
            raise Stopped('B.2.3', 'a band or an approximation in a sequential scan')

    def check_progression(self, scan):
        """G.1.1.1: which scan may follow"""
        first, last = scan.first, scan.last
        if not first <= last <= 63 or (first == 0 and last):
            raise Stopped('G.1.1.1.1', 'a band that is none, or DC and AC in one scan')
        if first and len(scan.members) > 1:
            raise Stopped('G.1.1.1.1', 'AC coefficients of several components in one scan')
        if scan.high > 13 or scan.low > 13 or (scan.high and scan.high != scan.low + 1):
            raise Stopped('G.1.1.1', 'an approximation that does not follow the one before')
        for component, _, _ in scan.members:
            if first and 0 not in component.levels:
                self.note('broken', 'G.1.1.1.1', 'AC coefficients before DC')
            for k in range(first, last + 1):
                if component.levels.get(k) != (scan.high if scan.high else None):
                    self.note('broken', 'G.1.1.1', 'a band sent again, or refined before it')
                component.levels[k] = scan.low

    # ---- the whole

    def read(self):
        try:
            # (B.1.1.2: fill bytes may stand before any marker)
            self.place = max(len(self.stream) - len(self.stream.lstrip(b'\xff')) - 1, 0)
            if self.take(2) != b'\xff\xd8':
                raise Stopped('B.2.1', 'no SOI at the start')
            self.read_segments()
        except Stopped as stopped:
            if not self.verdict.unread:
                self.note('broken', *stopped.args)
        if self.verdict.frame is None and not self.has_frame_header():
            self.note('pictureless', 'B.2.1', 'no frame header')
        return self.verdict

    def has_frame_header(self):
        """Returns whether any bytes could be a frame header, also after what can't be read."""
        for at in range(len(self.stream) - 3):
            marker, code = self.stream[at : at + 2]
            if marker == 0xFF and 0xC0 <= code <= 0xCF and code not in (0xC4, 0xC8, 0xCC):
                length = int.from_bytes(self.stream[at + 2 : at + 4], 'big')
                if at + 2 + length <= len(self.stream):
                    return True
        return False

    def read_segments(self):
        while True:
            code = self.marker()
            if code == 0xD9:
                return self.finish()
            if 0xC0 <= code <= 0xCF and code not in (0xC4, 0xC8, 0xCC):
                self.read_frame(code - 0xC0, self.segment())
            elif code == 0xC4:
                self.read_codes(self.segment())
            elif code == 0xDB:
                self.read_quantization(self.segment())
            elif code == 0xDA:
                self.read_scan(self.segment())
            elif code == 0xDD:
                data = self.segment()
                if len(data) != 2:
                    raise Stopped('B.2.4.4', 'a DRI segment of another length than 4')
                self.interval = int.from_bytes(data, 'big')
            elif code == 0xFE or 0xE0 <= code <= 0xEF:
                self.segment()
            elif 0xD0 <= code <= 0xD7 and 'scan' in self.verdict.facts:
                self.wider('B.2.1', 'a restart marker outside the data of a scan')
            elif code == 0xDC and 'scan' in self.verdict.facts:
                self.check_lines(self.segment())
            else:
                raise Stopped('B.1.1.3', 'marker FF%02X, which has no place here' % code)

    def check_lines(self, data):
        """B.2.5: DNL stands after the first scan."""
        scans = sum(component.scans for component in self.verdict.frame.components)
        if len(data) != 2 or data == b'\0\0' or 'second scan' in self.verdict.facts or scans == 0:
            raise Stopped('B.2.5', 'a DNL segment without a place or a number')
        self.verdict.unread = 'DNL'

    def finish(self):
        verdict, frame = self.verdict, self.verdict.frame
        verdict.end = self.place
        if frame is None:
            return
        if any(component.scans == 0 for component in frame.components):
            is_open = verdict.process == 'progressive' and 'scan' in verdict.facts
            self.note('open' if is_open else 'broken', 'B.2.1', 'a component without a scan')
        elif verdict.process == 'progressive':
            for component in frame.components:
                if any(component.levels.get(k, 1) for k in range(64)):
                    self.note('open', 'G.1.1.1', 'bits of coefficients that no scan has sent')
        elif any(component.scans > 1 for component in frame.components):
            self.note('open', 'A.2', 'a component in two scans of a sequential or lossless frame')
        if verdict.process != 'lossless':
            self.check_ranges()
            self.check_precisions()
        rest = self.stream[self.place :]
        if rest[:1] == b'\xff' and rest.lstrip(b'\xff')[:1] == b'\xd8':
            self.note('series', 'B.2.1', 'another SOI after EOI')
        elif rest:
            self.wider('B.2.1', 'bytes after EOI')

    def check_precisions(self):
        if self.verdict.frame.precision == 8 and any(
            precision for _, precision in self.quantization.values()
        ):
            self.wider('B.2.4.1', 'a quantization table of 16 bits for samples of 8')

    def check_ranges(self):
        """A.3.3: whether samples of a picture may give these coefficients."""
        unit = 1 << (self.verdict.frame.precision - 8)
        for component in self.verdict.frame.components:
            steps = component.quantization
            for block in component.blocks.values() if steps else ():
                sizes = [abs(value * step) for value, step in zip(block, steps)]
                furthest = sizes[0] / 8 + sum(sizes[1:]) / 4
                if furthest > FURTHEST * unit or any(
                    size > 1024 * unit + step / 2 for size, step in zip(sizes, steps)
                ):
                    self.note('range', 'A.3.3', 'coefficients beyond those of any samples')
                    return


class ScanReader:
    """What scans of both kinds have: MCUs, intervals and restart markers."""

    def __init__(self, reader, scan):
        self.reader, self.scan, self.verdict = reader, scan, reader.verdict
        self.frame = reader.verdict.frame
        facts = self.verdict.facts
        facts |= {'second scan'} if 'scan' in facts else set()
        facts.add('scan')
        if len(scan.members) > 1:
            facts.add('interleaved')

    def units(self, side):
        """A.2.2, A.2.3: the MCUs of the scan, each a list of (member, row, column), and how many
        stand side by side. `side` is 8 for blocks and 1 for samples."""
        frame, members = self.frame, self.scan.members
        if len(members) == 1:
            c = members[0][0]
            wide = ceil_div(ceil_div(frame.w * c.h, frame.hmax), side)
            high = ceil_div(ceil_div(frame.h * c.v, frame.vmax), side)
            return ([(0, y, x)] for y in range(high) for x in range(wide)), wide, wide * high
        wide, high = ceil_div(frame.w, side * frame.hmax), ceil_div(frame.h, side * frame.vmax)
        units = (
            [
                (j, y * c.v + v, x * c.h + h)
                for j, (c, _, _) in enumerate(members)
                for v in range(c.v)
                for h in range(c.h)
            ]
            for y in range(high)
            for x in range(wide)
        )
        return units, wide, wide * high

    def read(self):
        units, wide, total = self.units(self.side)
        every, number = self.reader.interval, 0
        self.check_tables()
        self.check_interval(every, wide)
        data = Data(self.reader.stream, self.reader.place)
        self.begin()
        for at, unit in enumerate(units):
            if every and at and at % every == 0:
                self.end_interval(data)
                self.expect_restart(number)
                number += 1
                data = Data(self.reader.stream, self.reader.place)
                self.begin()
            for member, row, column in unit:
                self.read_unit(data, member, row, column)
        if every and total > every:
            self.verdict.facts.add('restarts')
        self.end_interval(data)

    def check_interval(self, every, wide):
        """Any number of MCUs, but in lossless scans."""

    def expect_restart(self, number):
        """E.1.4, B.2.1: the restart markers stand in order."""
        if self.reader.stream[self.reader.place + 1 : self.reader.place + 2] == b'\xff':
            self.verdict.facts.add('filled restarts')
        if self.reader.marker() != 0xD0 + number % 8:
            raise Stopped('E.2.4', 'another marker than the next restart marker')

    def end_interval(self, data):
        """F.1.2.3: ones up to the whole byte, and then a marker"""
        self.end_run()
        reader, left = self.reader, 8 * len(data.bytes) - data.at
        reader.place = data.end
        if left >= 8:
            reader.note('surplus', 'E.2.4', 'bytes of data after the last block of an interval')
        elif left:
            filled = data.bytes[-1] | (1 << left) - 1
            if filled != data.bytes[-1]:
                self.verdict.edits[data.places[-1]] = filled
                reader.wider('F.1.2.3', 'padding that is not of ones')

    def end_run(self):
        """Ends what an interval of a progressive scan may leave open."""

    def table(self, kind, place):
        """B.2.3: a table is installed by the time of its scan"""
        table = self.reader.tables.get(kind << 4 | place)
        if not self.reader.tables:
            self.reader.note('abbreviated', 'B.2.3', 'no Huffman tables in the stream')
        if table is None:
            raise Stopped('B.2.3', 'a Huffman table that has not been installed')
        if table.has_all_ones:
            self.reader.wider('C.2', 'a code of ones alone')
        return table


class TransformScan(ScanReader):
    """A scan of a sequential or progressive frame (F.2.2, G.2)."""

    side = 8

    def check_tables(self):
        scan, reader = self.scan, self.reader
        self.most_dc, self.most_ac = (11, 10) if self.frame.precision == 8 else (15, 14)
        self.dc, self.ac = [], []
        for component, dc, ac in scan.members:
            found = reader.quantization.get(component.table)
            if found is None:
                raise Stopped('B.2.2', 'a quantization table that has not been installed')
            if 'respecified' in self.verdict.facts and component.quantization not in (
                None,
                found[0],
            ):
                reader.note('broken', 'B.2.2', 'a quantization table changed between two scans')
            component.quantization = found[0]
            # (a refinement of DC needs no code, but its header names a table)
            self.dc.append(self.table(0, dc) if scan.first == 0 else None)
            self.ac.append(self.table(1, ac) if scan.last else None)
        if any(table and max(table.values, default=0) > self.most_dc for table in self.dc):
            reader.wider('F.1.2.1', 'a DC table with a category that F.1.2.1 does not have')
        if scan.high:
            self.verdict.facts.add('refinement')
        if scan.low or scan.high:
            self.verdict.facts.add('approximation')

    def begin(self):
        self.predictions, self.run = [0] * len(self.scan.members), 0

    def end_run(self):
        if self.run:
            self.reader.wider('G.1.2.2', 'an end-of-band run beyond its interval')

    def read_unit(self, data, member, row, column):
        component = self.scan.members[member][0]
        block = component.blocks.setdefault((row, column), [0] * 64)
        scan = self.scan
        if scan.first == 0:
            if scan.high:
                block[0] |= data.bit() << scan.low
            else:
                self.read_difference(data, member, block)
        if scan.last == 0:
            return
        if scan.high:
            self.refine(data, self.ac[member], block)
        else:
            self.read_band(data, self.ac[member], block)

    def read_difference(self, data, member, block):
        """F.2.2.1"""
        size = data.symbol(self.dc[member])
        if size > self.most_dc:
            raise Stopped('F.1.2.1', 'a DC category that F.1.2.1 does not have')
        self.predictions[member] += extend(data.bits(size), size) if size else 0
        block[0] = self.predictions[member] << self.scan.low

    def read_band(self, data, table, block):
        """F.2.2.2, G.1.2.2"""
        if self.run:
            self.run -= 1
            return
        k, last = max(self.scan.first, 1), self.scan.last
        is_after_zeros = False
        while k <= last:
            symbol = data.symbol(table)
            zeros, size = symbol >> 4, symbol & 15
            if size == 0 and zeros < 15:
                if is_after_zeros:
                    self.reader.wider('F.1.2.2', 'sixteen zeros before an end of block')
                self.end_band(data, zeros)
                return
            k += zeros + (size == 0)
            is_after_zeros = size == 0
            if k > last + (size == 0):
                raise Stopped('F.2.2.2', 'a run of zeros past the end of the band')
            if size:
                if size + self.scan.low > self.most_ac:
                    self.reader.note('range', 'F.1.2.2', 'an AC category that the process has not')
                block[k] = extend(data.bits(size), size) << self.scan.low
                k += 1
        if is_after_zeros:
            self.reader.wider('F.1.2.2', 'sixteen zeros at the end of a block')

    def end_band(self, data, zeros):
        """EOB, or EOBn of a progressive scan"""
        if zeros and self.verdict.process != 'progressive':
            self.reader.wider('F.1.2.2', 'an end-of-band run in a sequential scan')
        self.run = (1 << zeros) - 1 + data.bits(zeros)

    def refine(self, data, table, block):
        """G.1.2.3"""
        k, last = self.scan.first, self.scan.last
        is_after_zeros = False
        while k <= last and not self.run:
            symbol = data.symbol(table)
            zeros, size = symbol >> 4, symbol & 15
            if size > 1:
                raise Stopped('G.1.2.3', 'a refinement with a value of more than one bit')
            if size == 0 and zeros < 15:
                if is_after_zeros:
                    self.reader.wider('G.1.2.3', 'sixteen zeros before an end of band')
                self.end_band(data, zeros)
                self.run += 1
                break
            is_after_zeros = size == 0
            value = (1 if data.bit() else -1) << self.scan.low if size else 0
            while k <= last and (block[k] or zeros):
                zeros -= self.correct(data, block, k)
                k += 1
            if k > last:
                raise Stopped('G.1.2.3', 'a run of zeros past the end of the band')
            block[k] = value
            k += 1
        if self.run:
            for place in range(k, last + 1):
                self.correct(data, block, place)
            self.run -= 1

    def correct(self, data, block, k):
        """Corrects a coefficient that isn't 0, and says whether it is."""
        if block[k] and data.bit():
            block[k] += (1 << self.scan.low) * (1 if block[k] > 0 else -1)
        return block[k] == 0


class LosslessScan(ScanReader):
    """A scan of a lossless frame (H.2)."""

    side = 1

    def check_interval(self, every, wide):
        if every % wide:
            self.reader.wider('H.1.1', 'a restart interval that is not of whole rows of MCUs')
            if self.units(1)[2] > every:
                raise Stopped('H.1.1', 'a restart interval that ends inside a row of MCUs')

    def check_tables(self):
        self.dc = [self.table(0, dc) for _, dc, _ in self.scan.members]
        self.planes = [{} for _ in self.scan.members]
        if any(max(table.values, default=0) > 16 for table in self.dc):
            self.reader.wider('H.1.2.2', 'a table with a category that H.1.2.2 does not have')
        if self.scan.low:
            self.verdict.facts.add('point transform')

    def begin(self):
        self.first_rows = {}

    def read_unit(self, data, member, row, column):
        size = data.symbol(self.dc[member])
        if size > 16:
            raise Stopped('H.1.2.2', 'a category that H.1.2.2 does not have')
        difference = 32768 if size == 16 else extend(data.bits(size), size) if size else 0
        first, plane = self.first_rows.setdefault(member, row), self.planes[member]
        bits = self.frame.precision - self.scan.low
        if row == first:
            prediction = plane[row, column - 1] if column else 1 << (bits - 1)
        elif column == 0:
            prediction = plane[row - 1, 0]
        else:
            prediction = model.predict(
                plane[row, column - 1],
                plane[row - 1, column],
                plane[row - 1, column - 1],
                self.scan.first,
            )
        sample = plane[row, column] = (prediction + difference) & 0xFFFF
        if sample >> bits:
            self.reader.wider('H.1.2.1', 'a sample beyond its precision')


def judge(stream):
    """Prints what a stream is by T.81."""
    return Reader(stream).read()


def as_strict(stream, verdict):
    """The same image as a strict writer has it: with ones in its padding, Se = 63 in sequential
    scans, and no bytes after EOI."""
    parts, start = [], 0
    for place, value in sorted(verdict.edits.items()):
        # (padding that makes FF of a byte is followed by a stuffed 00: B.1.1.5)
        parts += [stream[start:place], b'\xff\0' if value == 0xFF else bytes([value])]
        start = place + 1
    return b''.join(parts) + stream[start : verdict.end]


def main():
    verdict = judge(sys.stdin.buffer.read())
    print(verdict.process or verdict.unread or 'no frame')
    for departure in verdict.departures:
        print('%s: %s, %s' % departure)


if __name__ == '__main__':
    main()
