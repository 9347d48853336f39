#!/usr/bin/env python3
"""Tests what scripts/rvld-ld hands to rvld in place of inputs that it refuses: equal objects, ordinary archives, stand-ins; and its sentences.

Objects with LOCAL symbols past the ends of their sections are linked, and the executable is that of the object in which they stand at the
start and the addends have the rest; each value that a relocation makes is ld.lld's. Programs of GCC with section anchors write what they
write without, and what GNU ld makes of them. No input is changed. Then altered and cut objects: rvld's line or an executable, and no more;
and command lines and response files made by chance: what they ask for, or one line.
The last line is `N passed, M failed`; what is skipped for a tool that is not there is named.
Usage: scripts/tests/rvld-ld-inputs.py [--altered 3000] [--commands 3000] [--seed 1]            RVLD names the program, else crates/rvld/out/rvld
"""
import argparse
import os
import random
import resource
import shutil
import struct
import subprocess
import sys
import tempfile
import time

SCRIPTS = os.path.dirname(os.path.dirname(os.path.realpath(__file__)))
sys.dont_write_bytecode = True
sys.path.insert(0, SCRIPTS)
from elf.constants import *
from elf.read import File
from elf.write import ELSEWHERE, Texts, archive, entry, indexes, relocatable, simple, symbol
from rvld_ld import equal, link, words as tables

LD = os.path.join(SCRIPTS, 'rvld-ld')
A, W, X, T = ALLOC, WRITE, EXECINSTR, TLS

# Sections and symbols past their ends: what, the section's name, type and flags, its size, the symbol's value.
PAST = [
    ('one byte past .data', '.data', PROGBITS, A | W, 24, 25),
    ('eight bytes past .data', '.data', PROGBITS, A | W, 24, 32),
    ('far past .data', '.data', PROGBITS, A | W, 24, 70000),
    ('before .data', '.data', PROGBITS, A | W, 24, 2**64 - 8),
    ('far before .data', '.data', PROGBITS, A | W, 24, 2**64 - 40000),
    ('past an empty .data', '.data', PROGBITS, A | W, 0, 16),
    ('past .bss', '.bss', NOBITS, A | W, 40, 4096),
    ('past an empty .bss', '.bss', NOBITS, A | W, 0, 2048),
    ('past .sbss', '.sbss', NOBITS, A | W, 8, 2048),
    ('past .sdata', '.sdata', PROGBITS, A | W, 8, 2040),
    ('past .rodata', '.rodata', PROGBITS, A, 12, 2048),
    ('past .data.rel.ro', '.data.rel.ro.local', PROGBITS, A | W, 16, 100),
    ('past a section of another name', 'tables', PROGBITS, A | W, 16, 24),
    ('past notes', '.note.x', NOTE, A, 16, 24),
    ('past .tdata', '.tdata', PROGBITS, A | W | T, 16, 2064),
    ('past .tbss', '.tbss', NOBITS, A | W | T, 16, 4000),
    ('before .tbss', '.tbss', NOBITS, A | W | T, 16, 2**64 - 16),
]
# Those that stay as they are, so that rvld refuses them: the same, and what is different in the object.
KEPT = [
    ('past code', '.text.t', PROGBITS, A | X, 16, 24, ''),
    ('past merged constants', '.rodata.cst8', PROGBITS, A | MERGE, 16, 24, ''),
    ('reached by the global offset table', '.data', PROGBITS, A | W, 16, 24, 'got'),
    ('a global symbol', '.data', PROGBITS, A | W, 16, 24, 'global'),
    ('a table over another', '.data', PROGBITS, A | W, 16, 24, 'over'),
]

# The relocations in the section .use: kind, bytes, and the sign of the symbol's address.
WORDS = [(R_64, 8, 1), (R_32, 4, 1), (R_ADD8, 1, 1), (R_ADD16, 2, 1), (R_ADD32, 4, 1), (R_ADD64, 8, 1), (R_SUB8, 1, -1), (R_SUB16, 2, -1), (R_SUB32, 4, -1),
         (R_SUB64, 8, -1), (R_SET8, 1, 1), (R_SET16, 2, 1), (R_SET32, 4, 1), (R_32_PCREL, 4, 0)]
CODE = [0x17, 0x513, 0xa53023, 0x537, 0x513, 0xa53023]        # auipc, addi, sd; lui, addi, sd
TLS_CODE = [0x537, 0x453533 & 0xfffff | 0x450000, 0x513, 0xa53023]

PROGRAMS = {'anchors': '''
    #include <stdio.h>
    static int first[600], second[600], third[600];
    static const char *names[3] = {"one", "two", "three"};
    static struct { long a, b[300]; } pair = {1, {2}}, other = {3, {4}};
    __attribute__((noinline)) static void fill(int n) {
        for (int i = 0; i < 600; i++) { first[i] = i * n; second[i] = first[i] + n; third[i] = second[i] ^ first[i]; }
        pair.b[n] = other.a; other.b[n + 1] = pair.a;
    }
    int main(int argc, char **argv) {
        (void)argv;
        fill(argc + 2);
        long sum = 0;
        for (int i = 0; i < 600; i++) sum += first[i] + 2 * second[i] + 3 * third[i];
        printf("%ld %s %ld %ld %ld %ld\\n", sum, names[argc], (long)(second - first), (long)(third - first), pair.b[3], other.b[4]);
        return 0;
    }''', 'threads': '''
    #include <pthread.h>
    #include <stdio.h>
    static __thread int mine[400], yours[400];
    static int sums[4];
    static void *work(void *at) {
        int n = *(int *)at;
        for (int i = 0; i < 400; i++) { mine[i] = i + n; yours[i] = mine[i] * 2; }
        for (int i = 0; i < 400; i++) sums[n] += yours[i] - mine[i];
        return 0;
    }
    int main(void) {
        pthread_t threads[4];
        int numbers[4] = {0, 1, 2, 3};
        for (int i = 0; i < 4; i++) pthread_create(&threads[i], 0, work, &numbers[i]);
        for (int i = 0; i < 4; i++) pthread_join(threads[i], 0);
        printf("%d %d %d %d\\n", sums[0], sums[1], sums[2], sums[3]);
        return 0;
    }'''}


def built(name, kind, flags, size, value, moved=False, more='', suffix=''):
    """An object with a symbol `past` in a section, relocations in code and data that name it, and names from which they can be found."""
    names, thread = Texts(), flags & T
    addend, place = (value, 0) if moved else (0, value)
    code = TLS_CODE if thread else CODE
    entries, at = [], 0
    words = []
    for sort, width, _ in [] if thread else WORDS:
        at += -at % width
        words.append(entry(at, 1, sort, (addend + 5 + 2**63) % 2**64 - 2**63))
        at += width
    pairs = [(R_PCREL_HI20, 1), (R_PCREL_LO12_I, 2), (R_PCREL_LO12_S, 2), (R_HI20, 1), (R_LO12_I, 1), (R_LO12_S, 1)]
    if thread:
        pairs = [(R_TPREL_HI20, 1), (R_TPREL_ADD, 1), (R_TPREL_LO12_I, 1), (R_TPREL_LO12_S, 1)]
    for i, (sort, index) in enumerate(pairs):
        own = 0 if index == 2 or sort == R_TPREL_ADD else addend + 4
        entries.append(entry(4 * i, index, sort, (own + 2**63) % 2**64 - 2**63))
    if more == 'got':
        entries[0] = entry(0, 1, R_GOT_HI20, 0)
    symbol_kind = TLS_TYPE if thread else NOTYPE
    symbols = [bytes(24), symbol(names.add('.LANCHOR0'), LOCAL, symbol_kind, 3, place), symbol(names.add('.L0'), LOCAL, NOTYPE, 1, 0)]
    symbols += [symbol(names.add(text + suffix), GLOBAL, sort, section) for text, sort, section in
                (('_start', FUNC, 1), ('base', symbol_kind if thread else OBJECT, 3), ('use', OBJECT, 4))]
    if more == 'global':
        symbols.append(symbol(names.add('outside'), GLOBAL, NOTYPE, 3, value))
    data = relocatable([
        ('.text', PROGBITS, A | X, struct.pack('<%dI' % len(code), *code), 0, 0, 4, 0),
        ('.rela.text', RELA, INFO_LINK, b''.join(entries), 6, 1, 8, 24),
        (name, kind, flags, size if kind == NOBITS else bytes(range(size)), 0, 0, 8, 8 if flags & MERGE else 0),
        ('.use', PROGBITS, A | W, bytes(at), 0, 0, 8, 0),
        ('.rela.use', RELA, INFO_LINK, b''.join(words), 6, 4, 8, 24),
        ('.symtab', SYMTAB, 0, b''.join(symbols), 7, 3, 8, 24),
        ('.strtab', STRTAB, 0, names.bytes(), 0, 0, 1, 0)])
    if more == 'over':    # the entries for .use are those for .text as well
        table = File(data).table
        row = data[table + 128 + 24:table + 128 + 40]
        data = data[:table + 320 + 24] + row + data[table + 320 + 40:]
    return data


def asking(reloc, room, place):
    """An object whose `_start`, in the section of number `place`, has one relocation; symbol 2 is `answer`, which nothing defines. Numbers of sections stand
    in section 0 where they are `room` or more."""
    names = Texts()
    symbols = [bytes(24), symbol(names.add('_start'), GLOBAL, FUNC, place, 0, 8), symbol(names.add('answer'), GLOBAL, NOTYPE, UNDEF)]
    rows = [('.text', PROGBITS, A | X, bytes.fromhex('1300000067800000'), 0, 0, 4, 0), ('.rela.text', RELA, INFO_LINK, reloc, 3, 1, 8, 24),
            ('.symtab', SYMTAB, 0, b''.join(symbols), 4, 1, 8, 24), ('.strtab', STRTAB, 0, names.bytes(), 0, 0, 1, 0)]
    return relocatable(rows + ([indexes([0, place, UNDEF], 3)] if place >= ELSEWHERE else []), room=room)


def values(path, thread):
    """What the relocations made of the symbol's address, less that of `base`, which is at the section's start."""
    made = File(read(path))
    names = made.addresses()
    base, use, code = names['base'], names['use'], names['_start']
    got, place = [], 0
    for kind, width, sign in [] if thread else WORDS:
        place += -place % width
        word = made.number(use + place, width)
        got.append((kind, (word - (base - use - place if kind == R_32_PCREL else sign * base)) % 2**(8 * width)))
        place += width
    upper = [0] if thread else [0, 3]
    for i in upper:
        parts = [made.number(code + 4 * (i + k), 4) for k in range(len(TLS_CODE) if thread else 3)]
        low = parts[-2] >> 20
        stored = parts[-1] >> 25 << 5 | parts[-1] >> 7 & 31
        far = (parts[0] & 0xfffff000) + (low ^ 0x800) - 0x800
        got.append((i, (far - (base - code if i == 0 and not thread else base)) % 2**32, low == stored))
    return got


class Tests:
    def __init__(self, rvld):
        self.rvld, self.passed, self.failed = rvld, 0, 0
        self.env = dict(os.environ, RVLD=rvld)

    def check(self, what, good, said=''):
        if good:
            self.passed += 1
        else:
            self.failed += 1
            print('rvld-ld-inputs: %s%s' % (what, ': %s' % (said,) if said != '' else ''))
        return good

    @staticmethod
    def there(what, *tools):
        for tool in tools:
            if shutil.which(tool) is None:
                print('rvld-ld-inputs: skipped %s (%s is not there)' % (what, tool))
                return False
        return True

    def run(self, *words, env=None):
        end = subprocess.run(words, stdin=subprocess.DEVNULL, capture_output=True, env=env or self.env)
        return end.returncode, end.stdout.decode(errors='replace'), end.stderr.decode(errors='replace')

    def links(self, what, *words):
        end = self.run(LD, *words)
        return self.check(what, end == (0, '', ''), end)

    def line(self, what, words, line, *parts):
        """rvld's line comes first, and each part after it."""
        status, out, err = self.run(LD, *words)
        plain = self.run(LD, *words, env=dict(self.env, RVLD_PLAIN='1'))
        first, _, rest = err.partition('\n')
        self.check(what, status == 1 and out == '' and first.startswith(line) and all(part in rest for part in parts), (status, out, err))
        self.check(what + ', plain', plain == (1, '', first + '\n'), plain)

    def past(self):
        """Symbols past the ends of sections."""
        lld = self.there('the values of ld.lld', 'ld.lld')
        for i, (what, *row) in enumerate(PAST):
            thread = row[2] & T
            put('past.o', built(*row))
            put('moved.o', built(*row, moved=True))
            before = read('past.o')
            status, _, err = self.run(self.rvld, '-o', 'direct', 'past.o')
            self.check(what + ': refused', status == 1 and err.startswith('rvld: F09 BadSymbol file=past.o '), err)
            if not self.links(what, '-o', 'past', 'past.o', '--threads=%d' % (1 + i % 4)):
                continue
            self.check(what + ': moved', self.run(self.rvld, '-o', 'moved', 'moved.o') == (0, '', '') and read('past') == read('moved'))
            self.check(what + ': the input stays', read('past.o') == before)
            if lld and self.check(what + ': ld.lld', self.run('ld.lld', '-o', 'other', 'past.o')[0] == 0):
                self.check(what + ': values', values('past', thread) == values('other', thread), (values('past', thread), values('other', thread)))
        for what, *row in KEPT:
            put('kept.o', built(*row[:5], more=row[5]))
            self.line(what + ': stays', ['-o', 'kept', 'kept.o'], 'rvld: F09 BadSymbol file=kept.o ')

    def archives(self):
        """Members that are mended where they lie, and thin archives."""
        row = PAST[2][1:]
        put('past.o', built(*row))
        put('moved.o', built(*row, moved=True))
        odd = b'no object\n.'
        for what, form in (('a member', [('past.o', 'past.o')]), ('after a member of odd size', [('text', odd), ('past.o', 'past.o')]),
                           ('a long name', [('a_name_that_is_longer_than_fifteen.o', 'past.o'), ('text', odd)]),
                           ('two members of one name', [('m.o', simple(['unused'], [])), ('m.o', 'past.o')])):
            for file, own in (('past.a', 'past.o'), ('moved.a', 'moved.o')):
                put(file, archive([(name, read(own) if data == 'past.o' else data) for name, data in form]))
            put('asks.o', relocatable([('.symtab', SYMTAB, 0, bytes(24) + symbol(1, GLOBAL, NOTYPE, UNDEF), 2, 1, 8, 24),
                                           ('.strtab', STRTAB, 0, b'\0_start\0', 0, 0, 1, 0)]))
            before = read('past.a')
            if self.links(what, '-o', 'past', 'asks.o', 'past.a'):
                self.check(what + ': moved', self.run(self.rvld, '-o', 'moved', 'asks.o', 'moved.a') == (0, '', '') and read('past') == read('moved'))
            self.check(what + ': the archive stays', read('past.a') == before)
            self.links(what + ': by -u', '-o', 'past', '-u', '_start', 'past.a')
        self.links('a map', '-o', 'past', '-Map=map', 'asks.o', 'past.a')
        text = read('map').decode()
        self.check('a map has the names of the command', 'past.a(m.o) 1 .text' in text and '/proc/' not in text and text.startswith('rvld map 1\n'), text)
        status, out, err = self.run(LD, '-o', 'past', '--verbose', '-t', 'asks.o', 'past.a')
        self.check('--verbose says what was done', status == 0 and 'past.a(m.o): 1 LOCAL symbols past' in err, err)
        self.check('-t', out.split('\n')[1:] == ['asks.o', 'past.a(m.o)', ''], out)
        os.makedirs('below', exist_ok=True)
        shutil.copy('past.o', 'below/below.o')
        if self.there('thin archives', 'riscv64-linux-gnu-ar'):
            self.run('riscv64-linux-gnu-ar', 'rcsT', 'thin.a', 'below/below.o')
            self.run('riscv64-linux-gnu-ar', 'rcs', 'whole.a', 'below/below.o')
            self.check('a thin archive is refused', self.run(self.rvld, '-o', 'direct', 'asks.o', 'thin.a')[2].startswith('rvld: F07 Thin file=thin.a '))
            if self.links('a thin archive', '-o', 'past', 'asks.o', 'thin.a'):
                self.check('a thin archive as a whole one', self.run(LD, '-o', 'moved', 'asks.o', 'whole.a') == (0, '', '') and read('past') == read('moved'))
            os.rename('below/below.o', 'below/gone.o')
            self.line('a thin archive without its member', ['asks.o', 'thin.a'], 'rvld: F07 Thin file=thin.a ', 'below/below.o is not there')
        os.mkfifo('fifo.o')
        writer = subprocess.Popen(['cp', 'past.o', 'fifo.o'])
        end = self.run(LD, '-o', 'past', 'fifo.o')
        self.check('a FIFO is read once', end[0] == 1 and end[2].startswith('rvld: F09 BadSymbol file=fifo.o '), end)
        writer.wait()

    def compressed(self):
        """Debug data that is compressed."""
        if not self.there('compressed sections', 'riscv64-linux-gnu-gcc'):
            return
        put('plain.c', b'int f(int n) { return n + 1; }\nvoid _start(void) { f(2); }\n')
        gcc = ('riscv64-linux-gnu-gcc', '-c', '-O1')
        self.run(*gcc, '-o', 'plain.o', 'plain.c')
        for what, words, others in (('compressed debug data', [], []), ('of one file in two', ['-D_start=other', '-Df=g'], ['plain.o'])):
            self.run(*gcc, '-g', '-gz', *words, '-o', 'packed.o', 'plain.c')
            self.check(what + ': refused', self.run(self.rvld, '-o', 'direct', 'packed.o')[2].startswith('rvld: F05 Compressed file=packed.o '))
            if self.links(what, '-o', 'past', 'packed.o', *others) and not others:
                self.check(what + ': as without', self.run(self.rvld, '-o', 'moved', 'plain.o') == (0, '', '') and read('past') == read('moved'))

    def programs(self):
        """Programs of GCC, with section anchors and without."""
        gcc, gnu = 'riscv64-linux-gnu-gcc', 'riscv64-linux-gnu-ld'
        if not self.there('programs of GCC', gcc, gnu, 'qemu-riscv64'):
            return
        os.makedirs('bin', exist_ok=True)
        os.symlink(LD, 'bin/ld')
        for name, text in PROGRAMS.items():
            put(name + '.c', text.encode())
            for level in ('-O1', '-O2', '-Os'):
                wrote = []
                for what, words in (('anchors', ['-B', 'bin']), ('none', ['-fno-section-anchors', '-B', 'bin']),
                                    ('sections', ['-fdata-sections', '-Wl,--gc-sections,--icf=all', '-B', 'bin']), ('GNU ld', [])):
                    end = self.run(gcc, '-static', level, '-o', what, *words, name + '.c')
                    if self.check('%s %s %s: links' % (name, level, what), end == (0, '', ''), end):
                        wrote.append(self.run('qemu-riscv64', './' + what)[:2])
                self.check('%s %s: they write the same' % (name, level), len(wrote) == 4 and wrote[0][0] == 0 and len(set(wrote)) == 1, wrote)
        put('throws.cpp', b'int main(int argc, char **) { try { if (argc < 5) throw 3; } catch (int n) { return n; } }')
        if self.there('a throw', 'riscv64-linux-gnu-g++', 'qemu-riscv64'):
            end = self.run('riscv64-linux-gnu-g++', '-static', '-B', 'bin', '-o', 'throws', 'throws.cpp')
            self.check('a throw: it is caught', end == (0, '', '') and self.run('qemu-riscv64', './throws')[0] == 3, end)

    def sentences(self):
        """rvld's line, and what follows it."""
        if not self.there('sentences', 'riscv64-linux-gnu-gcc', 'riscv64-linux-gnu-g++'):
            return

        def compiled(name, text, *options, tool='riscv64-linux-gnu-gcc'):
            source = name + ('.cpp' if tool.endswith('+') else '.c')
            put(source, text.encode())
            end = self.run(tool, '-c', '-O1', *options, '-o', name + '.o', source)
            self.check('compiles ' + source, end[0] == 0, end[2])
        plus = 'riscv64-linux-gnu-g++'
        compiled('main', 'int answer(int);\nvoid _start(void) { answer(3); }')
        self.line('an undefined name', ['main.o'], 'rvld: F22 Undefined file=main.o ', 'undefined symbol: answer\n',
                  'referenced by _start of main.c, in main.o:(.text')
        compiled('asks', 'int answer(int, const char *);\nextern "C" void _start() { answer(3, ""); }', tool=plus)
        self.line('a name of C++', ['asks.o'], 'rvld: F22 Undefined file=asks.o ', 'undefined symbol: answer(int, char const*)', 'referenced by _start of asks.cpp')
        for tool in filter(shutil.which, ('c++filt', 'llvm-cxxfilt', 'riscv64-linux-gnu-c++filt')):
            shutil.rmtree('alone', ignore_errors=True)
            os.mkdir('alone')
            os.symlink(shutil.which(tool), 'alone/' + tool)
            os.symlink(sys.executable, 'alone/python3')
            end = self.run(LD, 'asks.o', env=dict(self.env, PATH=os.path.abspath('alone')))
            self.check('names of C++ by ' + tool, 'undefined symbol: answer(int, char const*)\n' in end[2], end)
        compiled('answer', 'int answer(int n, const char *p) { (void)p; return n; }')
        self.line('C for C++', ['asks.o', 'answer.o'], 'rvld: F22 ', 'did you mean: extern "C" answer, in answer.o')
        compiled('answer', 'int answer(int n) { return n; }', tool=plus)
        self.line('C++ for C', ['main.o', 'answer.o'], 'rvld: F22 ', 'did you mean: answer(int), in answer.o')
        compiled('one', 'int answer(int n) { return n; }\nvoid _start(void) {}')
        compiled('two', 'int answer(int n) { return n + 1; }')
        self.line('two definitions', ['one.o', 'two.o'], 'rvld: F20 Duplicate file=one.o ', 'duplicate symbol: answer', 'answer of one.c, in one.o',
                  'answer of two.c, in two.o')
        self.line('no entry', ['two.o'], 'rvld: F21 NoEntry file=- ', 'cannot find entry symbol _start', '-nostartfiles')
        compiled('slim', 'void _start(void) {}', '-flto', '-fno-fat-lto-objects')
        self.line('link-time optimization', ['slim.o'], 'rvld: F21 ', 'slim.o has only data for link-time optimization', '-ffat-lto-objects')
        compiled('virtual', 'struct S { virtual int f(); };\nstatic S only;\nS *volatile kept;\nextern "C" void _start() { kept = &only; }', tool=plus)
        self.line('no key function', ['virtual.o'], 'rvld: F22 ', 'undefined symbol: vtable for S', 'key function')
        compiled('soft', 'void _start(void) {}', '-march=rv64imac', '-mabi=lp64')
        self.line('two float ABIs', ['one.o', 'soft.o'], 'rvld: F16 FlagsClash file=soft.o ', 'soft-float (lp64), the first file for double-float (lp64d)', '-mabi')
        put('text.o', b'int x;\n')
        self.line('a source file', ['text.o'], 'rvld: F01 NotObject file=text.o ', 'text.o is a text')
        put('none.o', b'')
        self.line('an empty file', ['none.o'], 'rvld: F01 NotObject file=none.o ', 'none.o is an empty file')
        put('bitcode.o', b'BC\xc0\xde' + bytes(60))
        self.line('bitcode', ['bitcode.o'], 'rvld: F01 NotObject file=bitcode.o ', 'without -flto')
        put('host.o', read('one.o')[:18] + b'\x3e\0' + read('one.o')[20:])
        self.line('another machine', ['host.o'], 'rvld: F02 BadHeader file=host.o ', 'host.o is incompatible with elf64lriscv: it is for x86-64')
        put('cut.o', read('one.o')[:300])
        self.line('a file that is cut off', ['cut.o'], 'rvld: F03 Outside file=cut.o ', 'cut off')
        put('chosen.s', b'.globl _start, f; .type f, @gnu_indirect_function; _start: call f; f: ret\n')
        self.run('riscv64-linux-gnu-as', '-o', 'chosen.o', 'chosen.s')
        self.line('an IFUNC', ['chosen.o'], 'rvld: F17 Ifunc file=chosen.o ', 'f is chosen when the program starts (GNU_IFUNC)')
        put('far.s', b'.globl _start, far; _start: jal far; .zero 2000000; .type far, @function; far: ret\n')
        self.run('riscv64-linux-gnu-as', '-o', 'far.o', 'far.s')
        self.line('too far', ['far.o'], 'rvld: F24 Range file=far.o ', 'relocation R_RISCV_JAL out of range: 2000004 does not fit, to far\n',
                  'referenced by far.o:(.text)')
        for room, place, what in (RESERVED, 1, 'one part of a pair'), (6, 1, 'with the count in section 0'), (0, ELSEWHERE + 1, 'with all numbers apart'):
            put('part.o', asking(entry(0, 2, R_SET_ULEB128), room, place))
            self.line(what, ['part.o'], 'rvld: F14 BadUleb file=part.o ', 'part.o has a part of a pair', 'assemble it anew')
            put('apart.o', asking(entry(0, 2, R_PLT32), room, place))
            self.line('an undefined name, ' + what, ['apart.o'], 'rvld: F22 Undefined file=apart.o ', 'undefined symbol: answer\n', 'referenced by _start, in apart.o:(.text)')

    def stand_ins(self):
        """Functions that are chosen when the program starts, where the archive has one that is right everywhere."""
        if not self.there('stand-ins', 'riscv64-linux-gnu-as', 'qemu-riscv64'):
            return
        put('copy.s', b'.globl memcpy; .type memcpy, @gnu_indirect_function; memcpy: la a0, __memcpy_generic; ret\n')
        put('generic.s', b'.globl __memcpy_generic; .type __memcpy_generic, @function; __memcpy_generic: addi a0, a0, 2; ret\n')
        put('main.s', b'.globl _start; _start: li a0, 40; call memcpy; li a7, 93; ecall\n')
        for name in ('copy', 'generic', 'main'):
            self.run('riscv64-linux-gnu-as', '-o', name + '.o', name + '.s')
        put('libc.a', archive([('copy.o', read('copy.o')), ('generic.o', read('generic.o'))]))
        put('other.a', archive([('copy.o', read('copy.o'))]))
        if self.links('a stand-in', '-o', 'chosen', 'main.o', 'libc.a'):
            self.check('a stand-in runs', self.run('qemu-riscv64', './chosen')[0] == 42)
        status, _, err = self.run(LD, '--verbose', '-o', 'chosen', 'main.o', 'libc.a')
        self.check('a stand-in is told', status == 0 and 'libc.a(copy.o): chosen when the program starts; a stand-in calls __memcpy_generic' in err, err)
        row = PAST[2][1:]
        put('libc.a', archive([(name, built(*row, suffix=name)) for name in 'ab'] + [('copy.o', read('copy.o')), ('generic.o', read('generic.o'))]))
        if self.links('a stand-in beside two members that are mended', '-o', 'chosen', 'main.o', 'libc.a'):
            self.check('a stand-in beside others runs', self.run('qemu-riscv64', './chosen')[0] == 42)
        self.c_library()
        status, _, err = self.run(LD, '--verbose', '-o', 'chosen', 'asks.o', 'libc.a')
        self.check('what each program on glibc needs: links', status == 0 and err.count('rvld-ld: ran ') == 1 and err.count('\n') == 3, err)
        self.check('what each program on glibc needs: runs', self.run('qemu-riscv64', './chosen')[0] == 42)
        self.line('no stand-in', ['main.o', 'other.a'], 'rvld: F17 Ifunc file=other.a(copy.o) ', 'no __memcpy_generic in its archive')

    def c_library(self):
        """A libc.a with ar's table of names, and in it what almost each program on glibc has to have mended; and an object that asks for that."""
        for name, text in (('tls', '.data; start: .zero 8; .globl __libc_setup_tls; __libc_setup_tls: .quad past; .set past, start + 4096'),
                           ('copy', '.globl memcpy; .type memcpy, @gnu_indirect_function; memcpy: la a0, __memcpy_generic; ret'),
                           ('generic_with_a_long_name', '.globl __memcpy_generic; .type __memcpy_generic, @function; __memcpy_generic: addi a0, a0, 2; ret'),
                           ('asks', '.globl _start; _start: la a0, __libc_setup_tls; li a0, 40; call memcpy; li a7, 93; ecall')):
            put(name + '.s', text.encode() + b'\n')
            self.run('riscv64-linux-gnu-as', '-o', name + '.o', name + '.s')
        if os.path.exists('libc.a'):
            os.remove('libc.a')
        self.run('riscv64-linux-gnu-ar', 'rcs', 'libc.a', 'tls.o', 'copy.o', 'generic_with_a_long_name.o')

    def made(self):
        """Symbols of the command."""
        if not self.there('symbols of the command', 'riscv64-linux-gnu-as', 'qemu-riscv64'):
            return
        put('main.s', b'.globl _start; _start: lui a0, %hi(place); addi a0, a0, %lo(place); li a7, 93; ecall\n')
        put('kept.s', b'.section .text.kept, "ax"; .globl kept; kept: ret; .section .text.unkept, "ax"; .globl unkept; unkept: ret\n')
        for name in ('main', 'kept'):
            self.run('riscv64-linux-gnu-as', '-o', name + '.o', name + '.s')
        put('kept.a', archive([('kept.o', read('kept.o'))]))
        if self.links('--defsym', '-o', 'made', '--defsym=place=0x2b', 'main.o'):
            self.check('--defsym: its value', self.run('qemu-riscv64', './made')[0] == 43)
        self.links('-u', '-o', 'made', '--defsym', 'place=1', '-u', 'kept', '--gc-sections', '-Map=map', 'main.o', 'kept.a')
        text = read('map').decode()
        self.check('-u keeps', 'kept.a(kept.o) 4 .text.kept\n' in text and 'dropped kept.a(kept.o) 5 .text.unkept\n' in text, text)
        names = File(read('made')).addresses()
        self.check('-u: the symbols', 'kept' in names and 'unkept' not in names, names)
        for words in ([], ['--gc-sections']):
            self.links('without -u', '-o', 'without', '--defsym=place=1', 'main.o', *words)
            self.links('-u of what is there', '-o', 'made', '--defsym=place=1', '-u', '_start', 'main.o', *words)
            self.check('-u of what is there: the same program', read('made') == read('without'))
        self.links('-u of a name that is nowhere', '-o', 'made', '--defsym=place=1', '-u', 'nowhere', 'main.o')
        self.line('--require-defined', ['--defsym=place=1', '--require-defined=nowhere', 'main.o'], 'rvld: F22 Undefined file=--require-defined=nowhere ',
                  'undefined symbol: nowhere')
        status, out, _ = self.run(LD, '-o', 'made', '--defsym=place=1', '-u', 'kept', '-y', 'kept', 'main.o', 'kept.a', '--gc-sections', '--print-gc-sections',
                                  '--print-memory-usage')
        self.check('-y', status == 0 and '--undefined=kept: reference to kept' in out and 'kept.a(kept.o): definition of kept' in out, out)
        self.check('--print-gc-sections', 'removing unused section kept.a(kept.o):(.text.unkept)\n' in out, out)
        self.check('--print-memory-usage', 'Memory region         Used Size' in out and '%' in out, out)
        status, out, _ = self.run(LD, '-o', 'made', '-M', '--defsym=place=1', 'main.o')
        self.check('-M', status == 0 and out.startswith('rvld map 1\n') and 'symbol 0000000000000001 place' in out, out)

    def limits(self):
        """Outputs that can't be written, and many words."""
        with open('/dev/full', 'w') as full:
            for words in (['-v'], ['--version'], ['--help']):
                end = subprocess.run([LD, *words], stdout=full, stderr=subprocess.PIPE, env=self.env, text=True)
                line = 'rvld-ld: cannot write to the standard output: No space left on device\n'
                self.check(' '.join(words) + ' to a full device', (end.returncode, end.stderr) == (3, line), end)
        put('main.o', simple(['main'], [], entry_point=True))
        name = 'a_name_of_some_thirty_bytes_%06d.o'
        put('empty.o', relocatable([('.symtab', SYMTAB, 0, bytes(24), 2, 1, 8, 24), ('.strtab', STRTAB, 0, b'\0', 0, 0, 1, 0)]))
        os.makedirs('many', exist_ok=True)
        # one file under many names: 4 MB of them, by `./` again and again
        names = ['./' * 500 + 'empty.o' for _ in range(4000)]
        put('many.words', '\n'.join(names).encode())
        self.links('4 MB of names', '-o', 'many.out', 'main.o', '@many.words')
        put('quoted.words', ' '.join('"%s"' % word for word in names).encode())
        self.links('4 MB of quoted names', '-o', 'many.out', 'main.o', '@quoted.words')
        # more copies than a process may have files open at first
        for i in range(1500):
            put('many/%d.o' % i, built(*PAST[0][1:], suffix=str(i)))
        end = subprocess.run([LD, '-o', 'many.out', 'main.o', *('many/%d.o' % i for i in range(1500))], capture_output=True, env=self.env, text=True,
                             preexec_fn=lambda: resource.setrlimit(resource.RLIMIT_NOFILE, (256, resource.getrlimit(resource.RLIMIT_NOFILE)[1])))
        self.check('1500 mended objects', (end.returncode, end.stderr) == (0, ''), end.stderr)
        put('short.words', '\n'.join(['./' * 16 + '/empty.o'] * 100000).encode())
        self.links('100,000 names of 40 bytes', '-o', 'many.out', 'main.o', '@short.words')
        put('more.words', '\n'.join(names * 2).encode())
        end = self.run(LD, '-o', 'many.out', 'main.o', '@more.words')
        self.check('8 MB of names', end[0] == 2 and end[2].count('\n') == 1 and 'more than the system hands to a program' in end[2], end)

    @staticmethod
    def inside(rvld, words):
        """A command in this process, which is faster: the status, or the exception, and what was written to the standard error."""
        os.environ['RVLD'] = rvld
        said = os.open('said', os.O_CREAT | os.O_RDWR | os.O_TRUNC)
        kept, null = [os.dup(1), os.dup(2)], os.open(os.devnull, os.O_WRONLY)
        os.dup2(null, 1)
        os.dup2(said, 2)
        try:
            status = link.main(words)
        except BaseException as fault:
            status = repr(fault)
        os.dup2(kept[0], 1)
        os.dup2(kept[1], 2)
        os.closerange(said, 64)    # and the files that were made
        return status, read('said').decode(errors='replace')

    def commands(self, count, seed):
        """Command lines and response files made by chance."""
        names = [*tables.KIND, *tables.REFUSED, *tables.SHORT, *tables.SHORT_VALUE, 'warn-x', 'strange', '']
        values = ['', '0', '1', '-1', '0x', '0x1000', '9' * 40, '08', '4K', 'all', 'none', 'a.o', '.', 'no/folder', '=', '=1', 'a=1', 'a=0xg', '-', '--', '@', '@words',
                  '@.', 'libx.so', 'x.so.6', '%', ' ', '\n', '\0', '\udcff', '\u00fc', '\u2028', 'z' * 5000, 'elf64lriscv', 'report-all', '$SYSROOT/x']
        put('a.o', simple(['main'], [], entry_point=True))
        bad, ends = [], {}
        for i in range(count):
            chance = random.Random(seed * 1000003 + i)
            parts = [b'"', b"'", b'\\', b' ', b'\n', b'\0' if i % 8 == 0 else b'\t', b'a.o', b'-s', b'-o', b'x', b'\xff', b'-L', b'@words' if i % 4 == 0 else b'--verbose']
            put('words', b''.join(chance.choice(parts) for _ in range(chance.randrange(20))))
            words = ['a.o'] * chance.randrange(2)
            for _ in range(chance.randrange(6)):
                start, name, value = chance.choice(('-', '--')), chance.choice(names), chance.choice(values)
                words += chance.choice(([start + name], [start + name + '=' + value], [start + name + value], [start + name, value], [value]))
            status, text = self.inside(self.rvld if i % 8 == 0 else shutil.which('true'), words)
            lines = [line for line in text.split('\n')[:-1] if not line.startswith('rvld-ld: ran ') and ' processors, ' not in line]
            ends[status] = ends.get(status, 0) + 1
            starts = {0: [], 1: ['rvld: F'], 2: ['rvld-ld: '], 3: ['rvld: cannot ', 'rvld-ld: ']}.get(status, ['?'])
            if len(lines) != len(starts) and status != 1 or not all(line.startswith(start) for line, start in zip(lines, starts)):
                bad.append((words, status, text[:300]))
        self.check('%d command lines' % count, not bad, bad[:5])
        print('rvld-ld-inputs: %d command lines, by status %s' % (count, ends))

    def altered(self, count, seed):
        """Altered and cut objects and archives: rvld's line or an executable, and never an exception."""
        row = PAST[1][1:]
        whole = [built(*row), built(*PAST[14][1:]), archive([('text', b'odd'), ('past.o', built(*row)), ('a_name_that_is_longer.o', simple(['x'], ['y']))])]
        if shutil.which('riscv64-linux-gnu-gcc'):
            put('seed.c', PROGRAMS['anchors'].replace('#include <stdio.h>', 'int printf(const char *, ...);').encode())
            self.run('riscv64-linux-gnu-gcc', '-O2', '-g', '-gz', '-c', '-o', 'seed.o', 'seed.c')
            whole.append(read('seed.o'))
            self.c_library()
            whole += [read('libc.a')] * 2
        bad, ends = [], {}
        for i in range(count):
            chance = random.Random(seed * 1000003 + i)
            data = bytearray(chance.choice(whole))
            for _ in range(chance.choice((1, 1, 1, 2, 4))):
                at = chance.randrange(len(data))
                width = chance.choice((1, 1, 2, 4, 8))
                if chance.random() < 0.15:
                    del data[at:]
                    data = data or bytearray(b'x')
                elif chance.random() < 0.5:
                    # near the tables, whose fields matter most
                    at = min(len(data) - 1, struct.unpack_from('<Q', data.ljust(64, b'\0'), 40)[0] % len(data) + chance.randrange(640))
                most = 2**(8 * width) - 1
                data[at:at + width] = chance.choice((chance.getrandbits(8 * width), 0, 1, most, len(data) & most)).to_bytes(width, 'little')
            name = chance.choice(('altered', 'libc.a'))
            put(name, bytes(data))
            status, text = self.inside(self.rvld, ['-o', 'altered.out', *(['asks.o'] if name == 'libc.a' and os.path.exists('asks.o') else []), name])
            fine = status == 0 and text == '' or status == 1 and text.startswith('rvld: F') and 'Traceback' not in text and '/proc/' not in text
            ends[status] = ends.get(status, 0) + 1
            if not fine:
                bad.append((i, status, text[:300]))
                put('bad.%d' % i, bytes(data))
        self.check('%d altered files' % count, not bad, bad[:5])
        print('rvld-ld-inputs: %d altered files, by status %s' % (count, ends))

    def cost(self):
        """What the search of an archive takes that is as large as a C library's."""
        libc = self.run('riscv64-linux-gnu-gcc', '-print-file-name=libc.a')[1].strip() if shutil.which('riscv64-linux-gnu-gcc') else ''
        if os.path.isfile(libc):
            took = 9.0
            for _ in range(3):
                began = time.process_time()
                equal.mend(equal.mapped(libc), libc)
                took = min(took, time.process_time() - began)
            print('rvld-ld-inputs: %d bytes of libc.a are looked through in %.3f s' % (os.path.getsize(libc), took))
            self.check('a libc.a costs at most 0.2 s', took < 0.2, took)
            self.hello()

    def hello(self):
        """How long `gcc -static hello.c` takes, with rvld-ld as install.sh leaves it, and with an ld.lld that shortens calls: the least of some runs."""
        lld = next(filter(None, map(shutil.which, ['ld.lld-%d' % n for n in range(21, 14, -1)])), None)
        if lld is None:
            print('rvld-ld-inputs: skipped the time of a hello (ld.lld 15 or later is not there)')
            return
        put('hello.c', b'#include <stdio.h>\nint main(void) { printf("hello, %d\\n", 42); return 0; }\n')
        for folder in ('by-rvld', 'by-lld'):
            os.makedirs(folder, exist_ok=True)
        os.symlink(lld, 'by-lld/ld')
        shutil.copytree(os.path.join(SCRIPTS, 'rvld_ld'), 'by-rvld/rvld_ld', ignore=shutil.ignore_patterns('__pycache__'))
        put('by-rvld/ld', b'#!%s -IS\n' % os.fsencode(sys.executable) + read(LD).partition(b'\n')[2])
        os.chmod('by-rvld/ld', 0o755)
        self.run(sys.executable, '-m', 'compileall', '-q', 'by-rvld/rvld_ld')
        took, good = {'by-rvld': [], 'by-lld': []}, True
        for _ in range(15):
            for folder, times in took.items():
                began = time.monotonic()
                good &= self.run('riscv64-linux-gnu-gcc', '-static', '-B', folder, '-o', 'hello', 'hello.c') == (0, '', '')
                times.append(time.monotonic() - began)
        ours, theirs = (min(times) for times in took.values())
        idle = os.getloadavg()[0] < (os.cpu_count() or 1) / 2
        print('rvld-ld-inputs: gcc -static hello.c takes %.3f s with rvld-ld, %.3f s with %s: %.2f times%s' % (
            ours, theirs, os.path.basename(lld), ours / theirs, '' if idle else '; the machine has other work, so that says little'))
        self.check('gcc -static hello.c', good and (not idle or ours <= 1.3 * theirs), ours / theirs)


def put(path, data):
    with open(path, 'wb') as file:
        file.write(data)


def read(path):
    with open(path, 'rb') as file:
        return file.read()


def main():
    parser = argparse.ArgumentParser()
    parser.add_argument('--altered', type=int, default=3000)
    parser.add_argument('--commands', type=int, default=3000)
    parser.add_argument('--seed', type=int, default=1)
    parser.add_argument('--only')
    asked = parser.parse_args()
    rvld = os.path.abspath(os.environ.get('RVLD') or os.path.join(os.path.dirname(SCRIPTS), 'crates', 'rvld', 'out', 'rvld'))
    if not os.access(rvld, os.X_OK):
        print('rvld-ld-inputs: no program at %s' % rvld)
        return 1
    tests = Tests(rvld)
    with tempfile.TemporaryDirectory() as work:
        os.chdir(work)
        for part in 'past archives compressed programs sentences stand_ins made limits cost'.split():
            if asked.only in (None, part):
                getattr(tests, part)()
        if asked.only in (None, 'altered'):
            tests.altered(asked.altered, asked.seed)
        if asked.only in (None, 'commands'):
            tests.commands(asked.commands, asked.seed)
        os.chdir('/')
    print('%d passed, %d failed' % (tests.passed, tests.failed))
    return 1 if tests.failed else 0


if __name__ == '__main__':
    sys.exit(main())
