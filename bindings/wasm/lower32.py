#!/usr/bin/env python3
"""Makes a WebAssembly module with a 64-bit memory one with a 32-bit memory, and tests its stack.

lower32.py IN OUT

- Each address is taken modulo 2^32 where it meets the memory (i32.wrap_i64). Functions keep their
  64-bit parameters. The memory has less than 4 GiB, so the addresses of a module that stays within
  its memory are below 2^32 as they are.
- Each new value of the stack pointer is compared with the stack's bounds, and traps outside: so a
  stack that is too small is noticed at the entry of a function, before anything is written.
- The table, whose indices have 64 bits, and custom sections are left out.

A module that calls functions by pointers, imports something, has a global variable beside the stack
pointer, or an instruction that isn't listed here, is refused: the status is then 1. The input is
what wasm-ld --stack-first makes, whose stack is the bytes below the first value of its pointer.
"""
import sys

I32, I64, F32, F64, V128 = 0x7F, 0x7E, 0x7D, 0x7C, 0x7B
WRAP, EXTEND_S, EXTEND_U = b'\xa7', b'\xac', b'\xad'
DROPPED_SECTIONS = (0, 4)

# Pages of 65,536 bytes: 16 MiB short of 4 GiB, so that an address just below zero is outside.
MOST_PAGES = 65280

# A function that calls none may use as many bytes below the stack pointer without moving it.
RED_ZONE = 128

# The type of what is stored, by instruction.
STORES = {
    0x36: I32,
    0x37: I64,
    0x38: F32,
    0x39: F64,
    0x3A: I32,
    0x3B: I32,
    0x3C: I64,
    0x3D: I64,
    0x3E: I64,
}
LOADS = range(0x28, 0x36)
# unreachable, nop, else, end, return, drop, select; comparisons, arithmetic and conversions
PLAIN = {0x00, 0x01, 0x05, 0x0B, 0x0F, 0x1A, 0x1B, *range(0x45, 0xC5)}
# block, loop, if, br, br_if, call, local.get, .set, .tee, global.get, i32.const, i64.const
WITH_NUMBER = {0x02, 0x03, 0x04, 0x0C, 0x0D, 0x10, 0x20, 0x21, 0x22, 0x23, 0x41, 0x42}


class Refused(Exception):
    pass


class Reader:
    """Bytes, and the place up to which they were read."""

    def __init__(self, data, at=0):
        self.data, self.at = data, at

    def byte(self):
        self.at += 1
        return self.data[self.at - 1]

    def take(self, count):
        self.at += count
        return self.data[self.at - count : self.at]

    def number(self, signed=False):
        value = shift = 0
        while True:
            byte = self.byte()
            value |= (byte & 127) << shift
            shift += 7
            if byte < 128:
                return value - (1 << shift) if signed and byte & 64 else value


def leb(value):
    """An unsigned number as bytes."""
    out = bytearray()
    while value > 127:
        out.append(value & 127 | 128)
        value >>= 7
    return bytes(out) + bytes([value])


def signed_leb(value):
    """A number that is at least 0, as the bytes of a signed one."""
    out = bytearray()
    while value > 63:
        out.append(value & 127 | 128)
        value >>= 7
    return bytes(out) + bytes([value])


def vector(items):
    return leb(len(items)) + b''.join(items)


class Lowering:
    """The lowering of one function: its code so far, and its scratch locals, one for each name."""

    def __init__(self, code, first_local, stack):
        self.reader, self.stack = Reader(code), stack
        self.first_local, self.scratch = first_local, {}
        self.out = bytearray()

    def local(self, name, kind):
        index, _ = self.scratch.setdefault(name, (self.first_local + len(self.scratch), kind))
        return leb(index)

    def set(self, name, kind):
        self.out += b'\x21' + self.local(name, kind)

    def get(self, name, kind):
        self.out += b'\x20' + self.local(name, kind)

    def wrap_below(self, name, kind):
        """Wraps the number below a value of that type."""
        self.set(name, kind)
        self.out += WRAP
        self.get(name, kind)

    def place(self):
        """Copies the alignment and the offset of an access."""
        align, offset = self.reader.number(), self.reader.number()
        if align >= 64:
            raise Refused('more than one memory')
        if offset >= 1 << 32:
            raise Refused('an offset of 2^32 or more')
        self.out += leb(align) + leb(offset)

    def move_stack(self):
        """Sets the stack pointer where that is from RED_ZONE to the stack's end, and else traps."""
        if self.reader.number() != 0:
            raise Refused('a global variable beside the stack pointer')
        self.out += b'\x22' + self.local('stack', I64)
        self.out += b'\x42' + signed_leb(RED_ZONE) + b'\x7d'  # i64.const; i64.sub
        self.out += b'\x42' + signed_leb(self.stack - RED_ZONE) + b'\x56'  # i64.const; i64.gt_u
        self.out += b'\x04\x40\x00\x0b'  # if; unreachable; end
        self.get('stack', I64)
        self.out += b'\x24\x00'

    def grow_memory(self):
        """Grows by a number of pages of 64 bits: above 32, by 2^32 - 1, which is refused too."""
        self.set('pages', I64)
        self.out += b'\x41\x7f'
        self.get('pages', I64)
        self.out += WRAP
        self.get('pages', I64)
        self.out += b'\x42\x20\x88\x42\x00\x52\x1b'  # 32; shr_u; 0; ne; select
        self.out += b'\x40' + self.reader.take(1) + EXTEND_S

    def bulk(self):
        """An instruction of the prefix FC: a saturating conversion, a copy or a fill."""
        kind = self.reader.number()
        indices = b''
        if kind == 10:
            indices = self.reader.take(2)
            self.set('count', I64)
            self.set('from', I64)
            self.out += WRAP
            self.get('from', I64)
            self.out += WRAP
            self.get('count', I64)
            self.out += WRAP
        elif kind == 11:
            indices = self.reader.take(1)
            self.set('count', I64)
            self.wrap_below('byte', I32)
            self.get('count', I64)
            self.out += WRAP
        elif kind > 7:
            raise Refused(f'the instruction FC {kind}')
        self.out += b'\xfc' + leb(kind) + indices

    def vector_code(self):
        """An instruction of the prefix FD: of 128 bits."""
        kind = self.reader.number()
        if kind == 11 or 84 <= kind <= 91:
            self.wrap_below('vector', V128)
        elif kind <= 10 or kind in (92, 93):
            self.out += WRAP
        elif kind > 255:
            raise Refused(f'the instruction FD {kind}')
        self.out += b'\xfd' + leb(kind)
        if kind <= 11 or 84 <= kind <= 93:
            self.place()
        if kind in (12, 13):
            self.out += self.reader.take(16)
        elif 21 <= kind <= 34 or 84 <= kind <= 91:
            self.out += self.reader.take(1)

    def instruction(self):
        start = self.reader.at
        code = self.reader.byte()
        if code in STORES:
            self.wrap_below(f'value {STORES[code]}', STORES[code])
            self.out.append(code)
            self.place()
        elif code in LOADS:
            self.out += WRAP + bytes([code])
            self.place()
        elif code == 0x24:
            self.move_stack()
        elif code == 0x3F:
            self.out += b'\x3f' + self.reader.take(1) + EXTEND_U
        elif code == 0x40:
            self.grow_memory()
        elif code == 0xFC:
            self.bulk()
        elif code == 0xFD:
            self.vector_code()
        else:
            self.skip_operands(code)
            self.out += self.reader.data[start : self.reader.at]

    def skip_operands(self, code):
        """Reads the operands of an instruction that stays as it is."""
        if code in WITH_NUMBER:
            self.reader.number()
        elif code == 0x0E:  # br_table
            for _ in range(self.reader.number() + 1):
                self.reader.number()
        elif code == 0x1C:  # select of a type
            self.reader.take(self.reader.number())
        elif code in (0x43, 0x44):  # f32.const, f64.const
            self.reader.take(4 if code == 0x43 else 8)
        elif code not in PLAIN:
            raise Refused(f'the instruction {code:#x}')

    def lowered(self):
        while self.reader.at < len(self.reader.data):
            self.instruction()
        return bytes(self.out)


def lowered_function(body, parameters, stack):
    reader = Reader(body)
    groups = [(reader.number(), reader.byte()) for _ in range(reader.number())]
    lowering = Lowering(body[reader.at :], parameters + sum(many for many, _ in groups), stack)
    code = lowering.lowered()
    groups += [(1, kind) for _, kind in lowering.scratch.values()]
    body = vector([leb(many) + bytes([kind]) for many, kind in groups]) + code
    return leb(len(body)) + body


def parameters_of_types(reader):
    """How many parameters each type of function has."""
    found = []
    for _ in range(reader.number()):
        if reader.byte() != 0x60:
            raise Refused('a type that is no function')
        found.append(reader.number())
        reader.take(found[-1])
        reader.take(reader.number())
    return found


def lowered_memory(reader):
    if reader.number() != 1:
        raise Refused('more than one memory')
    flags = reader.byte()
    if not flags & 4:
        raise Refused('the memory has no 64-bit addresses')
    first = reader.number()
    most = min(reader.number(), MOST_PAGES) if flags & 1 else MOST_PAGES
    return b'\x01\x01' + leb(first) + leb(most)


def stack_of(reader):
    """The first value of the stack pointer, the only variable: how many bytes the stack has."""
    found = 0
    for index in range(reader.number()):
        kind, is_variable = reader.byte(), reader.byte()
        if reader.byte() != 0x42:
            raise Refused('a global that is no plain number of 64 bits')
        value = reader.number(signed=True)
        if kind != I64 or reader.byte() != 0x0B or is_variable != (index == 0):
            raise Refused('a global variable beside the stack pointer')
        found = value if index == 0 else found
    if found <= RED_ZONE:
        raise Refused('no stack pointer')
    return found


def lowered_data(reader):
    segments = []
    for _ in range(reader.number()):
        if reader.number() != 0 or reader.byte() != 0x42:
            raise Refused('a data segment without a plain place')
        place = reader.number(signed=True)
        if reader.byte() != 0x0B or not 0 <= place < 1 << 31:
            raise Refused("a data segment's place")
        data = reader.take(reader.number())
        segments.append(b'\x00\x41' + signed_leb(place) + b'\x0b' + leb(len(data)) + data)
    return vector(segments)


def lowered_module(data):
    if data[:8] != b'\x00asm\x01\x00\x00\x00':
        raise Refused('this is no WebAssembly module')
    out, reader = bytearray(data[:8]), Reader(data, 8)
    parameters, functions, stack = [], [], 0
    while reader.at < len(data):
        kind, size = reader.byte(), reader.number()
        content = reader.take(size)
        section = Reader(content)
        if kind in DROPPED_SECTIONS:
            continue
        if kind == 1:
            parameters = parameters_of_types(section)
        elif kind == 2 and section.number():
            raise Refused('the module imports something')
        elif kind == 3:
            functions = [section.number() for _ in range(section.number())]
        elif kind == 5:
            content = lowered_memory(section)
        elif kind == 6:
            stack = stack_of(section)
        elif kind == 9:
            raise Refused('functions are called by pointers')
        elif kind == 10:
            bodies = [section.take(section.number()) for _ in range(section.number())]
            content = vector(
                [
                    lowered_function(body, parameters[functions[index]], stack)
                    for index, body in enumerate(bodies)
                ]
            )
        elif kind == 11:
            content = lowered_data(section)
        out += bytes([kind]) + leb(len(content)) + content
    return bytes(out)


def main():
    if len(sys.argv) != 3:
        sys.exit(__doc__)
    with open(sys.argv[1], 'rb') as file:
        data = file.read()
    try:
        module = lowered_module(data)
    except Refused as refused:
        sys.exit(f'lower32.py: {refused}')
    with open(sys.argv[2], 'wb') as file:
        file.write(module)


if __name__ == '__main__':
    main()
