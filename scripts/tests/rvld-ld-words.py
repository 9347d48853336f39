#!/usr/bin/env python3
"""Tests scripts/rvld-ld alone: a program that writes down its words stands in rvld's place.

The words come from the compilers that are here (`-###`, and real calls with `-B` and `--ld-path`), and from the tables below: words that are
turned into rvld's, and words that are refused, each with its line. The last line is `N passed, M failed`; what is skipped is named.
Usage: scripts/tests/rvld-ld-words.py
"""
import os
import shlex
import shutil
import signal
import subprocess
import sys
import tempfile
import time

SCRIPTS = os.path.dirname(os.path.dirname(os.path.realpath(__file__)))
LD = os.path.join(SCRIPTS, 'rvld-ld')
VERSION = 'rvld-ld 1.0.0 (compatible with GNU ld 2.40)\n'
PIE = 'rvld writes programs for fixed addresses; give the driver -static or -no-pie'
SHARED = 'a shared library; rvld links static programs'
ADDRESSES = 'rvld chooses each address itself'
NUMBER = 'rvld-ld takes NAME=NUMBER, and no other expression'
MADE = '/proc/self/fd/3'    # the first file that rvld-ld makes
MAP = '--Map=' + MADE

# What drivers hand over: the tools, the driver's words, and rvld's words by the last part of each path (or the line, where it is refused).
LINUX = 'crt1.o crti.o crtbeginT.o a.o libgcc.a libgcc_eh.a libc.a crtend.o crtn.o'
DRIVERS = [
    ('riscv64-linux-gnu-gcc -static', LINUX),
    ('riscv64-linux-gnu-gcc -static -o prog', '--output=prog ' + LINUX),
    ('riscv64-linux-gnu-gcc -static -flto -O2 -g', LINUX),
    ('riscv64-linux-gnu-gcc -static -rdynamic -s', '-s ' + LINUX),
    ('riscv64-linux-gnu-gcc -static -Wl,--gc-sections,-e,begin -Wl,-z,now,-O1', '--entry=begin --gc-sections ' + LINUX),
    ('riscv64-linux-gnu-gcc -static -Wl,--icf=all,--no-relax,--threads=2', '--icf=all --threads=2 --no-relax ' + LINUX),
    ('riscv64-linux-gnu-gcc -static -Wl,--build-id=none,--no-eh-frame-hdr,-rpath,/lib', LINUX),
    ('riscv64-linux-gnu-gcc -nostdlib -no-pie', 'a.o'),
    ('riscv64-linux-gnu-gcc -nostdlib -static', 'a.o'),
    ('riscv64-linux-gnu-g++ -static', 'crt1.o crti.o crtbeginT.o a.o libstdc++.a libm.a libgcc.a libgcc_eh.a libc.a crtend.o crtn.o'),
    ('riscv64-linux-gnu-gcc -static-pie', ['-pie: ' + PIE]),
    ('riscv64-linux-gnu-gcc -pie', ['-pie: ' + PIE]),
    ('riscv64-linux-gnu-gcc -shared', ['-shared: rvld writes no shared objects']),
    ('riscv64-linux-gnu-gcc -nostdlib -r', ['-r: rvld writes no objects']),
    ('riscv64-linux-gnu-gcc -static -T a.ld', ['-T: rvld takes no linker scripts']),
    ('riscv64-linux-gnu-gcc -static -u name', '--undefined=name ' + LINUX),
    ('riscv64-linux-gnu-gcc -static -Wl,--defsym=place=0x1000', '3 ' + LINUX),
    ('riscv64-linux-gnu-gcc -static -Wl,--sort-common,--sort-section=alignment,--warn-common', LINUX),
    ('riscv64-linux-gnu-gcc -static -Wl,--whole-archive', ['--whole-archive: rvld takes the members of an archive that are asked for, and no others']),
    ('riscv64-unknown-elf-gcc', 'crt0.o crtbegin.o a.o libgcc.a libc.a libgloss.a crtend.o'),
    ('riscv64-unknown-elf-gcc -nostdlib -o prog', '--output=prog a.o'),
    ('riscv64-unknown-elf-gcc -nostartfiles -Wl,--gc-sections', '--gc-sections a.o libgcc.a libc.a libgloss.a'),
    ('riscv64-unknown-elf-gcc -march=rv64imac -mabi=lp64 -nostdlib', 'a.o'),
    ('riscv64-unknown-elf-gcc -march=rv32imac -mabi=ilp32 -nostdlib', ['-melf32lriscv: rvld links 64-bit little-endian RISC-V alone (-m elf64lriscv)']),
    ('riscv64-unknown-elf-gcc --specs=picolibc.specs', ['-Tpicolibc.ld: rvld takes no linker scripts']),
    ('clang --target=riscv64-linux-gnu -static', '--output=a.out ' + LINUX),
    ('clang --target=riscv64-linux-gnu -static -Wl,--gc-sections,-s -o prog', '--output=prog --gc-sections -s ' + LINUX),
    ('clang --target=riscv64-linux-gnu -nostdlib -no-pie', '--output=a.out a.o'),
    ('clang --target=riscv64-linux-gnu -static -rdynamic', '--output=a.out ' + LINUX),
    ('clang --target=riscv64-linux-gnu -shared', ['-shared: rvld writes no shared objects']),
    ('clang --target=riscv64-linux-gnu -pie', ['-pie: ' + PIE]),
    ('clang --target=riscv64-unknown-elf', '--output=a.out a.o libc.a libm.a libgcc.a'),
    ('clang --target=riscv64-unknown-elf -nostdlib', '--output=a.out a.o'),
]

# Words that are taken, and rvld's words. In the folder: a.o b.o d/liba.a e/liba.a e/libb.a e/libs.so e/odd.lib sys/lib/libr.a
TAKEN = [
    ('a.o', 'a.o'),
    ('-o prog a.o -o other', '--output=other a.o'),
    ('-oprog -ebegin a.o', '--output=prog --entry=begin a.o'),
    ('--output=prog --entry begin a.o', '--output=prog --entry=begin a.o'),
    ('--output prog --Map m -e begin --threads 4 --gc-sections --icf all --no-relax -s a.o',
     '--output=prog --Map=m --entry=begin --threads=4 --icf=all --gc-sections --no-relax -s a.o'),
    ('a.o -la -L d', 'a.o d/liba.a'),
    ('-L d -L e -la a.o', 'd/liba.a a.o'),
    ('-Le -Ld a.o -la', 'a.o e/liba.a'),
    ('-L d -L e a.o -la -lb -la', 'a.o d/liba.a e/libb.a'),
    ('a.o d/liba.a -la -L d -L ./d', 'a.o d/liba.a'),
    ('a.o d/liba.a e/liba.a', 'a.o d/liba.a e/liba.a'),
    ('a.o a.o', 'a.o a.o'),
    ('-L e a.o -l:odd.lib', 'a.o e/odd.lib'),
    ('--library-path=e --library=b a.o', 'e/libb.a a.o'),
    ('-L =/lib --sysroot=sys a.o -lr', 'a.o sys/lib/libr.a'),
    ('--sysroot sys -L$SYSROOT/lib a.o -lr', 'a.o sys/lib/libr.a'),
    ('--start-group -L d -la a.o --end-group -( b.o -)', 'd/liba.a a.o b.o'),
    ('-static -m elf64lriscv --eh-frame-hdr --no-eh-frame-hdr -z relro -znow -z noexecstack -z max-page-size=4096 a.o', 'a.o'),
    ('--hash-style=gnu -hash-style=both --build-id --build-id=none --build-id=sha1 -O1 -O --as-needed --no-as-needed -X -x a.o', 'a.o'),
    ('--no-dynamic-linker -nostdlib --no-warn-mismatch --no-warn-rwx-segments --warn-common --fatal-warnings a.o', 'a.o'),
    ('-plugin x.so -plugin-opt=a -plugin-opt=-pass-through=-lgcc --plugin-opt -lc a.o', 'a.o'),
    ('-dynamic-linker /lib/ld.so a.o', 'a.o'),
    ('--sysroot=/ --push-state --pop-state --no-whole-archive -Bstatic -Bdynamic -dn -d a.o', 'a.o'),
    ('-S --strip-debug --strip-all a.o', '-s a.o'),
    ('--gc-sections --no-gc-sections --no-relax --relax a.o', 'a.o'),
    ('--no-gc-sections --gc-sections a.o', '--gc-sections a.o'),
    ('-gc-sections -icf=none a.o', '--icf=none --gc-sections a.o'),
    ('-Map=m -Map other a.o', '--Map=other a.o'),
    ('--threads=1 a.o', '--threads=1 a.o'),
    ('--no-threads a.o', '--threads=1 a.o'),
    ('-pie -no-pie a.o', 'a.o'),
    ('-static -rpath /lib -rpath-link=/lib a.o', 'a.o'),
    ('-E --export-dynamic --exclude-libs ALL -Bsymbolic-functions --enable-new-dtags a.o', 'a.o'),
    ('--unresolved-symbols=report-all --oformat=elf64-littleriscv -b elf64-littleriscv a.o', 'a.o'),
    ('--Map=m a.o', '--Map=m a.o'),
    ('-Map m a.o', '--Map=m a.o'),
    ('-o prog -Map=prog.map -s a.o', '--output=prog --Map=prog.map -s a.o'),
    ('--Map first --no-print-map --Map=second a.o', '--Map=second a.o'),
    ('-s --strip-all -strip-all a.o', '-s a.o'),
    ('--self-input 4', '--self-input=4'),
    ('--self-input=4 -o prog --gc-sections --icf=all', '--self-input=4 --output=prog --icf=all --gc-sections'),
    ('-M a.o', MAP + ' a.o'),
    ('--print-map a.o', MAP + ' a.o'),
    ('-print-map --gc-sections a.o', MAP + ' --gc-sections a.o'),
    ('-Map=- a.o', MAP + ' a.o'),
    ('-Map - a.o', MAP + ' a.o'),
    ('-t a.o', MAP + ' a.o'),
    ('--trace a.o', MAP + ' a.o'),
    ('--print-gc-sections a.o', MAP + ' a.o'),
    ('--print-gc-sections --no-print-gc-sections a.o', 'a.o'),
    ('--print-memory-usage a.o', MAP + ' a.o'),
    ('-y main a.o', MAP + ' a.o'),
    ('-ymain --trace-symbol=other a.o', MAP + ' a.o'),
    ('--sort-section=name a.o', 'a.o'),
    ('--sort-section alignment a.o', 'a.o'),
    ('--sort-common --sort-common=descending a.o', 'a.o'),
    ('-u main a.o', '--undefined=main a.o'),
    ('-umain --undefined=main --undefined main a.o', '--undefined=main a.o'),
    ('--require-defined=main a.o', MADE + ' a.o'),
    ('-u one -u two a.o', '--undefined=one,two a.o'),
    ('--keep-unique=one a.o --keep-unique two --icf=safe', '--icf=safe --keep-unique=one,two a.o'),
    ('--defsym=place=0x10000 a.o', MADE + ' a.o'),
    ('--defsym place=64K a.o', MADE + ' a.o'),
    ('--defsym=place=-1 a.o', MADE + ' a.o'),
    ('-Map=m --require-defined=main a.o', '--Map=/proc/self/fd/4 /proc/self/fd/3 a.o'),
    ('-o --version a.o', '--output=--version a.o'),
    ('-e --help a.o', '--entry=--help a.o'),
    ('--stats a.o', 'a.o'),
    ('--verbose a.o', 'a.o'),
    ('-z max-page-size=0x1000 -z common-page-size=4K a.o', 'a.o'),
    ('@quotes', '--output=a b c\\"d\'e a.o'),
    ('@blanks', 'a.o b.o'),
    ('@words', '--output=a file.out a.o d/liba.a'),
    ('@nothing a.o', '@nothing a.o'),
    ('-v a.o', 'a.o'),
]

# What has rvld-ld tell something itself.
TELLING = ('-t ', '--trace a', '--print-memory', '--stats', '--verbose')

# Words that are refused, and the line.
REFUSED = [
    ('', 'no input files'),
    ('-static -o prog', 'no input files'),
    ('-shared a.o', '-shared: rvld writes no shared objects'),
    ('-pie a.o', '-pie: ' + PIE),
    ('-r a.o', '-r: rvld writes no objects'),
    ('--relocatable a.o', '--relocatable: rvld writes no objects'),
    ('-T a.ld a.o', '-T: rvld takes no linker scripts'),
    ('-Ta.ld a.o', '-Ta.ld: rvld takes no linker scripts'),
    ('--script=a.ld a.o', '--script=a.ld: rvld takes no linker scripts'),
    ('--whole-archive d/liba.a a.o', '--whole-archive: rvld takes the members of an archive that are asked for, and no others'),
    ('--version-script=a.ver a.o', '--version-script=a.ver: rvld gives symbols no versions'),
    ('--defsym=a=b a.o', '--defsym=a=b: ' + NUMBER),
    ('--defsym a=1+1 a.o', '--defsym=a=1+1: ' + NUMBER),
    ('--defsym a a.o', '--defsym=a: ' + NUMBER),
    ('--defsym =1 a.o', '--defsym==1: ' + NUMBER),
    ('--defsym=a=08 a.o', '--defsym=a=08: ' + NUMBER),
    ('--wrap=malloc a.o', '--wrap=malloc: rvld renames no symbols'),
    ('-Ttext=0x80000000 a.o', '-Ttext=0x80000000: ' + ADDRESSES),
    ('-Ttext 0x80000000 a.o', '-Ttext: ' + ADDRESSES),
    ('-Ttext-segment=0x80000000 a.o', '-Ttext-segment=0x80000000: ' + ADDRESSES),
    ('--section-start=.text=0x80000000 a.o', '--section-start=.text=0x80000000: ' + ADDRESSES),
    ('--image-base=0x80000000 a.o', '--image-base=0x80000000: ' + ADDRESSES),
    ('-rpath /lib a.o', '-rpath: rvld writes no programs that load shared libraries; give the driver -static'),
    ('a.o libx.so', 'libx.so: ' + SHARED),
    ('a.o d/libx.so.6', 'd/libx.so.6: ' + SHARED),
    ('a.o -L d -l:libx.so', '-l:libx.so: ' + SHARED),
    ('a.o -lnone', 'cannot find -lnone'),
    ('a.o -L d -lb', 'cannot find -lb'),
    ('a.o -L d -l:odd.lib', 'cannot find -l:odd.lib'),
    ('a.o -L e -Bdynamic -ls', 'cannot find -ls: e has it as a shared library alone, and rvld links static programs; give the driver -static'),
    ('--icf some a.o', '--icf=some: rvld folds all equal code, that whose address nothing takes, or none: --icf=all, --icf=safe or --icf=none'),
    ('-u a,b a.o', '--undefined=a,b: rvld takes no name with a comma'),
    ('--keep-unique=, a.o', '--keep-unique=,: rvld takes no name with a comma'),
    ('a.o -Map', '-Map: its value is missing'),
    ('-Map= a.o', '-Map=: its value is missing'),
    ('--self-input=4 a.o', '--self-input=4: it stands in place of files, and here are both'),
    ('--self-input=0', '--self-input=0: the number of generated objects is 1 to 65536'),
    ('--self-input 65537', '--self-input=65537: the number of generated objects is 1 to 65536'),
    ('--self-input=all', '--self-input=all: the number of generated objects is 1 to 65536'),
    ('--strip-all=yes a.o', '--strip-all=yes: not known, or not with a value'),
    ('-Map=prog -o prog a.o', 'prog: named for the program and for the map'),
    ('--sort-section=size a.o', '--sort-section=size: the orders are name, alignment and none; none changes a program without a linker script'),
    ('@zero', 'a%00b: a zero byte, which no name has'),
    ('@d', '@d: cannot be read: Is a directory'),
    ('-m elf32lriscv a.o', '-melf32lriscv: rvld links 64-bit little-endian RISC-V alone (-m elf64lriscv)'),
    ('-EB a.o', '-EB: rvld links little endian alone'),
    ('-z execstack a.o', '-zexecstack: rvld writes no program whose stack may be executed'),
    ('-z stack-size=65536 a.o', '-zstack-size=65536: rvld writes no size of the stack'),
    ('-z max-page-size=65536 a.o', '-zmax-page-size=65536: rvld lays segments out by pages of 4096 bytes'),
    ('-z strange a.o', '-zstrange: not known'),
    ('-N a.o', '-N: rvld writes no program whose code may be written to'),
    ('-q a.o', '-q: rvld writes no relocations'),
    ('--allow-multiple-definition a.o', '--allow-multiple-definition: rvld takes one strong definition of a name'),
    ('--unresolved-symbols=ignore-all a.o', '--unresolved-symbols=ignore-all: rvld links no program in which a name is missing'),
    ('--warn-unresolved-symbols a.o', '--warn-unresolved-symbols: rvld links no program in which a name is missing'),
    ('--oformat=binary a.o', '--oformat=binary: rvld writes elf64-littleriscv alone'),
    ('-b binary a.o', '--format=binary: rvld reads elf64-littleriscv alone'),
    ('--build-id=0x1234 a.o', '--build-id=0x1234: rvld writes no build ID'),
    ('--threads=0 a.o', '--threads=0: the number of workers is 1 to 64'),
    ('--threads 65 a.o', '--threads=65: the number of workers is 1 to 64'),
    ('--threads=many a.o', '--threads=many: the number of workers is 1 to 64'),
    ('--start-lib a.o --end-lib', '--start-lib: rvld takes no objects as members; make an archive of them'),
    ('-R a.o b.o', '-R: rvld takes no symbols of other programs'),
    ('-soname=x a.o', '-soname=x: rvld writes no shared objects'),
    ('--gc-sections=yes a.o', '--gc-sections=yes: not known, or not with a value'),
    ('--entry= a.o', '--entry=: its value is missing'),
    ('a.o -o', '-o: its value is missing'),
    ('a.o -l', '-l: its value is missing'),
    ('--strange a.o', '--strange: not known'),
    ('-strange a.o', '-strange: not known'),
    ('--no-strange a.o', '--no-strange: not known'),
    ("'--a strange one' a.o", '--a%20strange%20one: not known'),
    ("a.o '-la\nb%'", 'cannot find -la%0Ab%25'),
    ('@around', '@around: too many response files; one may name itself'),
]

# Words of other linkers that rvld-ld does not know. Each is refused in one line that names it, by itself and through a driver.
UNKNOWN = '''
    --strange --no-strange -strange -Wstrange -plt --time-trace --orphan-handling=error
    --symbol-ordering-file=order --call-graph-profile-sort=none --pack-dyn-relocs=relr --thinlto-cache-dir=cache --lto-O2 --out-implib=a.lib
    --spare-dynamic-tags=5 --target2=abs --cmse-implib --be8 --fix-cortex-a53-843419 --print-archive-stats=file --reproduce=a.tar --vs-diagnostics
'''.split()


class Tests:
    def __init__(self, work):
        self.work = work
        self.passed = self.failed = 0
        self.recorded = os.path.join(work, 'recorded')
        self.env = dict(os.environ, RVLD=os.path.join(work, 'recorder'), RECORDED=self.recorded)
        for folder in ('d', 'e', 'sys/lib', 'fake', 'bin', 'beside', 'empty'):
            os.makedirs(os.path.join(work, folder))
        names = 'a.o b.o a.ld d/liba.a e/liba.a e/libb.a e/libs.so e/odd.lib sys/lib/libr.a'.split()
        for name in names + ['fake/lib%s.a' % lib for lib in 'c m gcc gcc_eh gloss stdc++'.split()]:
            open(os.path.join(work, name), 'w').close()
        with open(os.path.join(work, 'words'), 'w') as file:
            file.write('-o "a file.out"\n\ta.o \'-L\' d -l\\a\n')
        for name, text in (('quotes', '-o "a b" c\\\\\\"d\\\'e \'a.o\''), ('blanks', '\v\fa.o\r\n\tb.o'), ('zero', 'a\0b a.o')):
            with open(os.path.join(work, name), 'w') as file:
                file.write(text)
        with open(os.path.join(work, 'around'), 'w') as file:
            file.write('a.o @around')
        with open(os.path.join(work, 'recorder'), 'w') as file:
            file.write('#!/bin/sh\nfor word; do printf "%s\\n" "$word"; done >"$RECORDED"\n')
        os.chmod(os.path.join(work, 'recorder'), 0o755)
        os.symlink(LD, os.path.join(work, 'bin', 'ld'))

    def run(self, words, env=None):
        """Status, standard output, standard error, and the words that rvld got (None where it was not started)."""
        if os.path.exists(self.recorded):
            os.remove(self.recorded)
        end = subprocess.run(words, cwd=self.work, env=env or self.env, stdin=subprocess.DEVNULL, capture_output=True, text=True)
        got = None
        if os.path.exists(self.recorded):
            with open(self.recorded) as file:
                got = file.read().split('\n')[:-1]
        return end.returncode, end.stdout, end.stderr, got

    def check(self, what, got, wanted):
        if got == wanted:
            self.passed += 1
        else:
            self.failed += 1
            print('rvld-ld-words: %s:\n  %s\n  is not\n  %s' % (what, got, wanted))

    def taken(self, words, wanted):
        status, out, err, got = self.run([LD] + shlex.split(words))
        told = ('', '') if any(word in words for word in TELLING) else (out, err)
        self.check(words, (status, *told, got and ' '.join(got)), (0, VERSION if words.startswith('-v') else '', '', wanted))

    def refused(self, words, line):
        self.check(words, self.run([LD] + shlex.split(words)), (2, '', 'rvld-ld: %s\n' % line, None))

    def driver(self, words, wanted):
        """The words that a driver says (-###) it would give to its linker."""
        words = shlex.split(words)
        if shutil.which(words[0]) is None:
            return self.skip(' '.join(words), words[0])
        end = subprocess.run(words + ['-###', 'a.o'], cwd=self.work, capture_output=True, text=True)
        if words[-1].endswith('.specs') and end.returncode != 0:
            return self.skip(' '.join(words), words[-1])
        lines = [line for line in end.stderr.split('\n') if line.startswith(' ') and 'a.o' in line]
        if not lines:
            return self.check(' '.join(words), end.stderr, 'a line with the linker\'s words')
        handed = shlex.split(lines[-1])[1:]
        handed = [word for word in handed if not word.startswith('-flto')]  # which collect2 keeps to itself
        # the folder with libraries of each name comes last: a driver may look where a library is missing here
        status, out, err, got = self.run([LD] + handed + ['-L', 'fake'])
        if isinstance(wanted, list):
            self.check(' '.join(words), (status, out, err, got), (2, '', 'rvld-ld: %s\n' % wanted[0], None))
        else:
            short = [word if word.startswith('-') else os.path.basename(word) for word in got or ()]
            made = [i for i, word in enumerate(got or ()) if word.startswith('/proc/self/fd/')]
            # a glibc of which one member is mended is handed on as a made file, the last of them
            if made and 'libc.a' not in short:
                short[made[-1]] = 'libc.a'
            short = None if got is None else ' '.join(short)
            self.check(' '.join(words), (status, out, err, short), (0, '', '', wanted))

    @staticmethod
    def skip(what, tool):
        print('rvld-ld-words: skipped %s (%s is not there)' % (what, tool))

    def called(self):
        """Real calls by a driver: -B, --ld-path, and a response file of the driver's own."""
        inputs = '-nostdlib a.o -L d -la'.split()
        with open(os.path.join(self.work, 'long'), 'w') as file:
            file.write(' '.join(inputs))
        for words in ('riscv64-linux-gnu-gcc -static -B bin', 'riscv64-unknown-elf-gcc -B bin'):
            words = words.split()
            if shutil.which(words[0]) is None:
                self.skip('calls of ' + words[0], words[0])
                continue
            for given in (inputs, ['@long']):
                status, _, err, got = self.run(words + given)
                self.check(' '.join(words + given), (status, err, got), (0, '', ['a.o', 'd/liba.a']))
        words = 'clang --target=riscv64-unknown-elf --ld-path=bin/ld -o prog'.split()
        if shutil.which('clang') is None:
            self.skip('calls of clang', 'clang')
        else:
            for given in (inputs, ['@long']):
                status, _, err, got = self.run(words + given)
                self.check(' '.join(words + given), (status, err, got), (0, '', ['--output=prog', 'a.o', 'd/liba.a']))

    def unknown(self):
        """Words that are not known: one line, and the driver hands it on."""
        for word in UNKNOWN:
            self.refused(word + ' a.o', word + (': not known, or not with a value' if '=' in word else ': not known'))
        for words in ('riscv64-linux-gnu-gcc -static -nostdlib -B bin', 'riscv64-unknown-elf-gcc -nostdlib -B bin',
                      'clang --target=riscv64-unknown-elf -nostdlib --ld-path=bin/ld'):
            words = words.split()
            if shutil.which(words[0]) is None:
                self.skip('unknown words through ' + words[0], words[0])
                continue
            for word in UNKNOWN[:3]:
                status, _, err, got = self.run(words + ['a.o', '-Wl,' + word])
                self.check(' '.join(words + [word]), (status != 0, err.split('\n')[0], got), (True, 'rvld-ld: %s: not known' % word, None))

    def asked(self):
        """Questions of configure scripts."""
        for words in ('--version', '-v', '-V', '-m elf64lriscv --version'):
            self.check(words, self.run([LD] + words.split()), (0, VERSION, '', None))
        status, out, err, got = self.run([LD, '--help'])
        self.check('--help', (status, out.startswith('usage: rvld-ld '), err, got), (0, True, '', None))
        self.check('--verbose', self.run([LD, '--verbose']), (0, VERSION, '', None))

    def found(self):
        """Where rvld is looked for: beside the link, beside the file, on the path."""
        env = {name: value for name, value in self.env.items() if name != 'RVLD'}
        recorder, beside = self.env['RVLD'], os.path.join(self.work, 'beside')
        copy = os.path.join(beside, 'ld')
        shutil.copy(LD, copy)
        self.check('a copy alone', self.run([copy, 'a.o'], env),
                   (2, '', 'rvld-ld: its folder rvld_ld is not beside %s: call it by a link, not by a copy\n' % os.path.realpath(copy), None))
        shutil.copytree(os.path.join(SCRIPTS, 'rvld_ld'), os.path.join(beside, 'rvld_ld'))
        python = os.path.dirname(shutil.which('python3') or sys.executable)
        env['PATH'] = os.pathsep.join([python, os.path.join(self.work, 'empty')])
        if shutil.which('rvld', path=env['PATH']) is None:
            self.check('no rvld', self.run([copy, 'a.o'], env),
                       (2, '', 'rvld-ld: cannot find rvld: set RVLD to the program, or put it on the path\n', None))
        shutil.copy(recorder, os.path.join(self.work, 'empty', 'rvld'))
        self.check('on the path', self.run([copy, 'a.o'], env), (0, '', '', ['a.o']))
        os.remove(os.path.join(self.work, 'empty', 'rvld'))
        shutil.copy(recorder, os.path.join(beside, 'rvld'))
        self.check('beside', self.run([copy, 'a.o'], env), (0, '', '', ['a.o']))
        os.symlink(copy, os.path.join(self.work, 'empty', 'ld'))
        self.check('beside what a link leads to', self.run([os.path.join(self.work, 'empty', 'ld'), 'a.o'], env), (0, '', '', ['a.o']))
        env['RVLD'] = os.path.join(self.work, 'missing')
        self.check('RVLD that is missing', self.run([copy, 'a.o'], env),
                   (2, '', 'rvld-ld: %s: cannot be run: No such file or directory\n' % env['RVLD'], None))

    def program(self, name, text):
        """A program in rvld's place, and the environment that names it."""
        path = os.path.join(self.work, name)
        with open(path, 'w') as file:
            file.write('#!/bin/sh\n' + text)
        os.chmod(path, 0o755)
        return dict(self.env, RVLD=path)

    def ended(self):
        """Signals: what ends rvld-ld ends rvld first, and what ends rvld ends rvld-ld; a broken pipe ends it as it ends GNU ld."""
        env = self.program('slow', 'echo $$ >"$RECORDED.new"\nmv "$RECORDED.new" "$RECORDED"\nexec sleep 60\n')
        for number in (signal.SIGTERM, signal.SIGINT, signal.SIGHUP):
            if os.path.exists(self.recorded):
                os.remove(self.recorded)
            # what runs in a shell's background ignores some of these, and what it starts does too
            run = subprocess.Popen([LD, 'a.o'], cwd=self.work, env=env, stdin=subprocess.DEVNULL, stdout=subprocess.PIPE, stderr=subprocess.PIPE,
                                   preexec_fn=lambda: signal.signal(number, signal.SIG_DFL))
            while not os.path.exists(self.recorded) and run.poll() is None:
                time.sleep(0.01)
            with open(self.recorded) as file:
                child = int(file.read())
            run.send_signal(number)
            said = run.communicate()
            try:
                os.kill(child, 0)
            except ProcessLookupError:
                child = None
            self.check('ended by %s' % number.name, (run.returncode, said, child), (-number, (b'', b''), None))
        for number in (signal.SIGKILL, signal.SIGSEGV, signal.SIGXFSZ):
            env = self.program('killed', 'ulimit -c 0\nkill -%d $$\n' % number)
            self.check('rvld ended by %s' % number.name, self.run([LD, 'a.o'], env), (-number, '', '', None))
        for words in (['--help'], ['-v'], ['--strange']):
            reader, writer = os.pipe()
            os.close(reader)
            end = subprocess.run([LD, *words], cwd=self.work, env=self.env, stdout=writer, stderr=writer)
            os.close(writer)
            self.check('a broken pipe: ' + words[0], end.returncode, -signal.SIGPIPE)


def main():
    with tempfile.TemporaryDirectory() as work:
        tests = Tests(work)
        for words, wanted in TAKEN:
            tests.taken(words, wanted)
        for words, line in REFUSED:
            tests.refused(words, line)
        for words, wanted in DRIVERS:
            tests.driver(words, wanted)
        tests.unknown()
        tests.called()
        tests.asked()
        tests.found()
        tests.ended()
    print('%d passed, %d failed' % (tests.passed, tests.failed))
    return 1 if tests.failed else 0


if __name__ == '__main__':
    sys.exit(main())
