#!/usr/bin/env python3
"""Tests ../pairs.py: it replaces a function as the kit makes it, and no function that differs."""
import pathlib
import subprocess
import sys
import tempfile

SCRIPT = pathlib.Path(__file__).resolve().parent.parent / 'pairs.py'


def vector(places):
    return ', '.join(f'i32 {place}' for place in places)


def module():
    """The function, called twice."""
    lines = ['%r0 = alloca [32 x i8], align 16', '%r1 = alloca [32 x i8], align 16']
    lines += [f'%r{place} = alloca [64 x i8], align 16' for place in (2, 3, 4)]
    lines += [
        'call void @llvm.memset.p0.i64(ptr %r1, i8 0, i64 32, i1 false)',
        '%r5 = load <16 x i16>, ptr %a1, align 2, !noundef !1',
        'store <16 x i16> %r5, ptr %r1, align 2',
    ]
    base = 'zeroinitializer'
    for lane in range(16):
        factor = '%a3' if lane % 2 else '%a2'
        lines.append(f'%r{6 + lane} = insertelement <16 x i32> {base}, i32 {factor}, i32 {lane}')
        base = f'%r{6 + lane}'
    shuffle = 'shufflevector <16 x i32> %r25, <16 x i32> %r25,'
    lines += [
        'store <16 x i32> %r21, ptr %r2, align 4',
        '%r22 = load <16 x i16>, ptr %r1, align 2, !noundef !1',
        '%r23 = sext <16 x i16> %r22 to <16 x i32>',
        '%r24 = load <16 x i32>, ptr %r2, align 4, !noundef !1',
        '%r25 = mul <16 x i32> %r23, %r24',
        f'%r26 = {shuffle} <8 x i32> <{vector(range(0, 16, 2))}>',
        f'%r27 = {shuffle} <8 x i32> <{vector(range(1, 16, 2))}>',
        '%r28 = add <8 x i32> %r26, %r27',
        'store <8 x i32> %r28, ptr %r0, align 4',
        '%r29 = load <8 x i32>, ptr %r0, align 4, !noundef !1',
        'store <8 x i32> %r29, ptr %a0, align 4',
        'ret void',
    ]
    head = '(ptr noundef %a0, ptr noundef %a1, i32 noundef %a2, i32 noundef %a3) #0 {\nstart:\n'
    body = ''.join(f'  {line}\n' for line in lines)
    calls = ''.join(
        f'  call void @"a::sums"(ptr %x, ptr %y, i32 {factors})\n'
        for factors in ('32767, i32 -32768', '5352, i32 2217')
    )
    caller = f'define void @caller(ptr %x, ptr %y) {{\nstart:\n{calls}  ret void\n}}\n'
    return f'define internal void @"a::sums"{head}{body}}}\n\n{caller}'


CHANGES = (
    ('i32 12, i32 14>', 'i32 14, i32 12>'),
    ('i32 13, i32 15>', 'i32 13, i32 14>'),
    ('%r25 = mul', '%r25 = add'),
    ('%r25 = mul <16 x i32> %r23, %r24', '%r25 = mul <16 x i32> %r24, %r24'),
    ('%r28 = add', '%r28 = mul'),
    ('%r28 = add', '%r28 = sub'),
    ('add <8 x i32> %r26, %r27', 'add <8 x i32> %r26, %r26'),
    ('sext', 'zext'),
    ('insertelement <16 x i32> %r20, i32 %a3', 'insertelement <16 x i32> %r20, i32 %a2'),
    ('i32 %a2, i32 14', 'i32 %a2, i32 12'),
    ('%r29, ptr %a0', '%r29, ptr %a1'),
    ('load <16 x i16>, ptr %a1', 'load <16 x i16>, ptr %a0'),
    ('load <16 x i16>, ptr %r1', 'load <16 x i16>, ptr %r3'),
    ('  ret void\n', '  store <8 x i32> %r28, ptr %a0, align 4\n  ret void\n'),
    ('  ret void\n', '  call void @other()\n  ret void\n'),
    ('32767, i32 -32768', '32768, i32 -32768'),
    ('32767, i32 -32768', '32767, i32 -32769'),
    ('5352, i32 2217', '%z, i32 2217'),
    ('caller(ptr %x, ptr %y) {', 'caller(ptr %x, ptr %y) prefix ptr @"a::sums" {'),
)


def lowered(folder, text):
    source, output = folder / 'in.ll', folder / 'out.ll'
    source.write_text(text, encoding='utf-8')
    subprocess.run([sys.executable, SCRIPT, source, output], check=True, stdout=subprocess.DEVNULL)
    return output.read_text(encoding='utf-8')


def main():
    text = module()
    with tempfile.TemporaryDirectory() as name:
        folder = pathlib.Path(name)
        changed = lowered(folder, text)
        if changed.count('call <4 x i32> @llvm.wasm.dot') != 2 or '%r25' in changed:
            sys.exit('pairs: the function is as it was')
        for old, new in CHANGES:
            other = text.replace(old, new, 1)
            if other == text or lowered(folder, other) != other:
                sys.exit(f'pairs: {old} -> {new}')
    print(f'pairs: the function, and {len(CHANGES)} that differ')


if __name__ == '__main__':
    main()
