#!/usr/bin/env python3
"""Gives WebAssembly's product of pairs to the function that computes it.

pairs.py IN.ll OUT.ll

A processor adds the products of neighbouring 16-bit lanes by one instruction. LLVM finds the sums
for x86-64 (pmaddwd), but not for WebAssembly (i32x4.dot_i16x8_s), where it takes seven. So each
function of the module that has the shape

    internal void f(ptr sums, ptr pairs, i32 first, i32 second)

and does nothing but store, for each j below 8, `first * pairs[2 * j] + second * pairs[2 * j + 1]`,
is given a body that calls the instruction. Its instructions are evaluated here, lane by lane, with
symbols for what it is given: a function with any other result, or an instruction that isn't listed
here, stays as it is. So does one that is called with factors that aren't constants of 16 bits.
"""
import re
import sys

DEFINITION = re.compile(
    r'^define internal void (?P<name>@"[^"]+")'
    r'\(ptr noundef %a0, ptr noundef %a1, i32 noundef %a2, i32 noundef %a3\)[^\n]*\{\nstart:\n'
    r'(?P<body>(?:  [^\n]*\n)*)\}\n',
    re.M,
)
ALLOCA = re.compile(r'(%r\d+) = alloca \[\d+ x i8\], align \d+')
CLEAR = re.compile(r'call void @llvm\.memset\.p0\.i64\(ptr (%r\d+), i8 0, i64 \d+, i1 false\)')
LOAD = re.compile(r'(%r\d+) = load <(\d+) x (i\d+)>, ptr (%\w+), align \d+(?:, !noundef !\d+)?')
STORE = re.compile(r'store <(\d+) x (i\d+)> (%r\d+), ptr (%\w+), align \d+')
INSERT = re.compile(
    r'(%r\d+) = insertelement <16 x i32> (zeroinitializer|%r\d+), i32 (%a[23]), i32 (\d+)'
)
EXTEND = re.compile(r'(%r\d+) = sext <16 x i16> (%r\d+) to <16 x i32>')
COMBINE = re.compile(r'(%r\d+) = (mul|add) <(\d+) x i32> (%r\d+), (%r\d+)')
SHUFFLE = re.compile(
    r'(%r\d+) = shufflevector <16 x i32> (%r\d+), <16 x i32> (%r\d+), <8 x i32> <([i\d ,]+)>'
)

NUMBERS = ', '.join
WANTED = (
    'i32',
    [
        ('add', ('mul', ('pairs', 2 * j), '%a2'), ('mul', ('pairs', 2 * j + 1), '%a3'))
        for j in range(8)
    ],
)


class Other(Exception):
    """The function does something else."""


class Evaluation:
    """What the vectors of a function are so far: the type of their lanes, and a symbol for each."""

    def __init__(self):
        self.vectors, self.memory, self.result = {}, {}, None

    def lanes(self, name, count, kind):
        vector = self.vectors.get(name)
        if vector is None or vector[0] != kind or len(vector[1]) != count:
            raise Other
        return vector[1]

    def allocate(self, place):
        self.memory[place] = None

    def clear(self, place):
        if place not in self.memory:
            raise Other
        self.memory[place] = None

    def load(self, name, count, kind, place):
        if place == '%a1':
            loaded = ('i16', [('pairs', lane) for lane in range(16)])
        else:
            loaded = self.memory.get(place)
        self.vectors[name] = loaded
        self.lanes(name, int(count), kind)

    def store(self, count, kind, name, place):
        lanes = self.lanes(name, int(count), kind)
        if place == '%a0':
            self.result = (kind, lanes)
        elif place in self.memory:
            self.memory[place] = (kind, lanes)
        else:
            raise Other

    def insert(self, name, base, factor, lane):
        lanes = [0] * 16 if base == 'zeroinitializer' else list(self.lanes(base, 16, 'i32'))
        lanes[int(lane)] = factor
        self.vectors[name] = ('i32', lanes)

    def extend(self, name, source):
        # (a symbol stands for a number, so that it is the same one in more bits)
        self.vectors[name] = ('i32', self.lanes(source, 16, 'i16'))

    def combine(self, name, sign, count, first, second):
        pairs = zip(*(self.lanes(it, int(count), 'i32') for it in (first, second)))
        self.vectors[name] = ('i32', [(sign, *pair) for pair in pairs])

    def shuffle(self, name, first, second, places):
        both = [*self.lanes(first, 16, 'i32'), *self.lanes(second, 16, 'i32')]
        chosen = [both[int(place)] for place in re.findall(r'i32 (\d+)', places)]
        self.vectors[name] = ('i32', chosen)

    STEPS = (
        (ALLOCA, allocate),
        (CLEAR, clear),
        (LOAD, load),
        (STORE, store),
        (INSERT, insert),
        (EXTEND, extend),
        (COMBINE, combine),
        (SHUFFLE, shuffle),
    )

    def step(self, line):
        if self.result:
            raise Other
        for pattern, action in self.STEPS:
            found = pattern.fullmatch(line)
            if found:
                action(self, *found.groups())
                return
        raise Other


def computes_sums(body):
    """Whether the instructions store the sums, and do nothing else."""
    *lines, last = [line.strip() for line in body.splitlines()]
    evaluation = Evaluation()
    try:
        for line in lines:
            evaluation.step(line)
    except Other:
        return False
    return last == 'ret void' and evaluation.result == WANTED


def has_short_factors(module, name):
    """Whether all that is made of the function is calls with constants of 16 bits."""
    call = r'call void ' + re.escape(name) + r'\(ptr %\w+, ptr %\w+, i32 (-?\d+), i32 (-?\d+)\)\n'
    calls = re.findall(call, module)
    factors = [int(factor) for both in calls for factor in both]
    in_range = all(-32768 <= factor <= 32767 for factor in factors)
    return in_range and len(calls) + 1 == module.count(name)


def body_by_dot():
    """The sums by the instruction, four at a time."""
    eight = [f'i32 {lane}' for lane in range(8)]
    lines = ['%pairs = load <16 x i16>, ptr %a1, align 2']
    for half, first in (('low', 0), ('high', 8)):
        places = NUMBERS(f'i32 {first + lane}' for lane in range(8))
        lines.append(
            f'%{half} = shufflevector <16 x i16> %pairs, <16 x i16> poison, <8 x i32> <{places}>'
        )
    lines += ['%first = trunc i32 %a2 to i16', '%second = trunc i32 %a3 to i16']
    base = 'poison'
    for lane in range(8):
        factor = '%second' if lane % 2 else '%first'
        lines.append(f'%f{lane} = insertelement <8 x i16> {base}, i16 {factor}, i32 {lane}')
        base = f'%f{lane}'
    for half in ('low', 'high'):
        lines.append(
            f'%{half}.sums = call <4 x i32> @llvm.wasm.dot(<8 x i16> %{half}, <8 x i16> {base})'
        )
    lines += [
        '%sums = shufflevector <4 x i32> %low.sums, <4 x i32> %high.sums, '
        f'<8 x i32> <{NUMBERS(eight)}>',
        'store <8 x i32> %sums, ptr %a0, align 4',
        'ret void',
    ]
    return ''.join(f'  {line}\n' for line in lines)


def main(source, output):
    with open(source, encoding='utf-8') as file:
        module = file.read()
    names = []

    def replaced(found):
        name, body = found['name'], found['body']
        if not computes_sums(body) or not has_short_factors(module, name):
            return found[0]
        names.append(name)
        return found[0].replace(body, body_by_dot())

    changed = DEFINITION.sub(replaced, module)
    if names:
        changed += '\ndeclare <4 x i32> @llvm.wasm.dot(<8 x i16>, <8 x i16>)\n'
    with open(output, 'w', encoding='utf-8') as file:
        file.write(changed)
    print(f'pairs.py: functions by the product of pairs: {", ".join(names) or "none"}')


if __name__ == '__main__':
    main(*sys.argv[1:])
