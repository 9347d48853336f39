#!/usr/bin/env python3
"""Makes the table of values and places that the tests of crates/rv_code compare with, by the GNU assembler alone.

Usage: scripts/fields.py            prints the table, as crates/rv_code/src/tests/encodings.rt has it
       scripts/fields.py --check    compares it with that file: a line for each that differs, and a count; the status is 1 if one does

Each row is an instruction or a number as riscv64-linux-gnu-as encodes it, with the value written out in its text, and the bytes that
riscv64-linux-gnu-objdump prints of it, as one number, the lowest byte first. Where the text has a displacement, objdump has to read the same one from
the bytes. Parts of a value are taken by the assembler's own %hi and %lo, and a number longer than its place is cut by the assembler, so that
nothing of a field is worked out here; but the high bits of a byte whose low six are a field are put in by the text. Where a tool is not
there, nothing is made or compared, and a line says so.
"""
import difflib
import os
import re
import shutil
import subprocess
import sys
import tempfile

AS, OBJDUMP = 'riscv64-linux-gnu-as', 'riscv64-linux-gnu-objdump'
TABLE = os.path.join(os.path.dirname(os.path.realpath(__file__)), '..', 'crates', 'rv_code', 'src', 'tests', 'encodings.rt')


def patterns(low, high):
    """Bits `low` to `high` of a value, the highest its sign: none, each alone, every second one, all but the sign, and all."""
    bits = range(low, high + 1)
    sets = [[]] + [[k] for k in bits] + [bits[::2], bits[1::2], bits[:-1], bits]
    values = [sum(1 << k for k in some) for some in sets]
    return [v - (2 << high) if v >> high else v for v in values]


def few(values):
    return values[:1] + values[-5:]


def numbers(width):
    """Values at both ends of a number of so many bits, with a sign and without, one past each, and some that are longer than any."""
    sign, top = 2 ** (width - 1), 2 ** width
    return [0, 1, -1, sign - 1, sign, top - 1, top, -sign, -sign - 1, 0x123456789abcdef, 2 ** 127 - 1, -2 ** 127]


LOW = patterns(0, 11) + [2048, 4095, 4096, -2049, 0x12345678, -0x12345678, 0x123456789abcdef]
ROUNDED = [0x7ff, 0x800, 0xfff, -0x800, -0x801, -1, 0x12345fff, -2 ** 31 - 0x800, 2 ** 31 - 0x801]
UPPER = patterns(12, 31)[:-2] + ROUNDED
BOTH = patterns(0, 31)[:-2] + ROUNDED[2:]
SIX = patterns(0, 5) + [32, 63, 64, 191, -33]

# Name, bytes of a place, text with V for the value, values. Where a field has a second instruction, its registers have the other bits.
FORMS = [
    ('BRANCH', 4, 'beq a0, a1, . + V', patterns(1, 12)),
    ('OTHER_BRANCH', 4, 'bgeu s5, s4, . + V', few(patterns(1, 12))),
    ('JUMP', 4, 'jal ra, . + V', patterns(1, 20)),
    ('OTHER_JUMP', 4, 'jal t5, . + V', few(patterns(1, 20))),
    ('SHORT_BRANCH', 2, 'c.beqz a0, . + V', patterns(1, 8)),
    ('OTHER_SHORT_BRANCH', 2, 'c.bnez a3, . + V', few(patterns(1, 8))),
    ('SHORT_JUMP', 2, 'c.j . + V', patterns(1, 11)),
    ('UPPER', 4, 'lui a0, %hi(V)', UPPER),
    ('UPPER_HERE', 4, 'auipc s5, %hi(V)', UPPER),
    ('LOW', 4, 'addi a0, a0, %lo(V)', LOW),
    ('LOW_OF_LOAD', 4, 'lhu s5, %lo(V)(s5)', few(patterns(0, 11))),
    ('LOW_OF_STORE', 4, 'sd a0, %lo(V)(a1)', LOW),
    ('LOW_OF_FLOAT_STORE', 4, 'fsw fs5, %lo(V)(s4)', few(patterns(0, 11))),
    ('CALL', 8, 'auipc ra, %hi(V); jalr ra, %lo(V)(ra)', BOTH),
    ('TAIL_CALL', 8, 'auipc t5, %hi(V); jalr zero, %lo(V)(t5)', few(BOTH)),
    ('BYTE', 1, '.byte V', numbers(8)),
    ('HALF', 2, '.half V', numbers(16)),
    ('WORD', 4, '.word V', numbers(32)),
    ('DOUBLEWORD', 8, '.dword V', numbers(64) + numbers(32)[4:7]),
    ('ADDRESS', 4, '.word V', [v for v in numbers(32) if -2 ** 31 <= v < 2 ** 32]),
    ('DISTANCE', 4, '.word V', [v for v in numbers(32) if -2 ** 31 <= v < 2 ** 31]),
    ('SIX', 1, '.byte 0x80 | (V & 0x3f)', SIX),
    ('OTHER_SIX', 1, '.byte 0x40 | (V & 0x3f)', few(SIX)),
]


def run(*words):
    done = subprocess.run(words, capture_output=True, text=True)
    if done.returncode:
        sys.exit(f'fields: {words[0]}: {done.stderr.strip()}')
    return done.stdout


def encoded(width, text, values, folder):
    """The bytes of the text with each value, which all have the same length."""
    source, made = os.path.join(folder, 'rows.s'), os.path.join(folder, 'rows.o')
    texts = [text.replace('%lo(V)', f'%lo({v % 2 ** 32})').replace('V', str(v)) for v in values]     # %lo takes 32 bits
    with open(source, 'w') as file:
        file.write('.option norelax\n' + ('.option norvc\n' if width > 2 else '') + '\n'.join(texts) + '\n')
    run(AS, '-march=rv64gc', '-mabi=lp64d', '--no-warn', '-o', made, source)
    code = bytes.fromhex(''.join(re.findall(r'^ [0-9a-f]+ ((?:[0-9a-f]+ ){1,4}) ', run(OBJDUMP, '-s', '-j', '.text', made), re.M)))
    if len(code) != width * len(values):
        sys.exit(f'fields: {text}: {len(code)} bytes for {len(values)} values')
    if '. + V' in text:
        read = re.findall(r'^ +([0-9a-f]+):\t[0-9a-f]+ +\t.*\b([0-9a-f]+) <', run(OBJDUMP, '-d', made), re.M)
        if [(int(there, 16) - int(here, 16) + 2 ** 63) % 2 ** 64 - 2 ** 63 for here, there in read] != values:
            sys.exit(f'fields: {text}: {OBJDUMP} reads other displacements')
    return [code[at:at + width] for at in range(0, len(code), width)]


def made():
    """The lines of the table."""
    yield HEAD
    with tempfile.TemporaryDirectory() as folder:
        for name, width, text, values in FORMS:
            values = list(dict.fromkeys(values))
            yield f'// {text}'
            line, most = f'pub(super) const {name}: &[Encoding] = rows![', 100   # `rt fmt` moves a longer first line
            for v, code in zip(values, encoded(width, text, values, folder)):
                row = f'{v} => 0x{int.from_bytes(code, "little"):0{2 * width}x}' + (',' if v != values[-1] else '];')
                if len(line) + len(row) + 1 > most:
                    yield line
                    line, most = '   ', 150
                line += row if line.endswith('[') else ' ' + row
            yield line


HEAD = '''//! Values V, and the bytes that GNU as makes of instructions and numbers with them: what `scripts/fields.py` prints.

use super::Encoding;

macro_rules! rows {
    ($($v:literal => $place:literal),+) => {
        &[$(Encoding { v: $v, place: $place }),+]
    };
}
'''


def main():
    missing = [tool for tool in (AS, OBJDUMP) if not shutil.which(tool)]
    if missing:
        print(f'fields: skipped ({missing[0]} is not there)')
        return 0
    lines = '\n'.join(made()).split('\n')
    if sys.argv[1:] != ['--check']:
        print('\n'.join(lines))
        return 0
    with open(TABLE) as file:
        there = file.read().split('\n')[:-1]
    count = 0
    for line in difflib.unified_diff(there, lines, 'encodings.rt', 'GNU as', n=0, lineterm=''):
        print(line)
        count += line[0] != '@'
    rows = sum(line.count('=> 0x') for line in lines)
    print(f'fields: {rows} rows, ' + (f'{count - 2} lines differ' if count else 'all as in encodings.rt'))
    return count != 0


if __name__ == '__main__':
    if sys.argv[1:] not in ([], ['--check']):
        sys.exit(__doc__)
    sys.exit(main())
