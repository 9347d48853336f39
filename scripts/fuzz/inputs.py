#!/usr/bin/env python3
"""Links altered copies of a real object, and of an archive of real objects, with rvld; and links that are made by chance, sound or not.

Usage: scripts/fuzz/inputs.py [RVLD] [--count 10000] [--mode objects|groups|archive|links|several|chains|all] [--seed 1] [--only K] [--keep DIR]
                              [--workers 3] [--loose] [--whole-calls]

Copy K is made from the seed and K alone: one byte changed, the end cut off, an entry of the section table doubled, or a field of a
section, a symbol, a relocation or a group set to a hard value; for an archive a byte or a cut, most often near the headers. Every third
is linked with --gc-sections, and every second with --icf. In the mode `groups` it is a copy of a file in C++, linked with one that has the
same groups. Link K of the mode `links` has a few files, one to sixty-four workers, and sometimes another entry, names that are asked for or
kept unique, and objects whose numbers of sections stand apart (scripts/fuzz/chance_links.py); one of `several` has the files of a few such
links, and up to a dozen of these are altered, so that it is seen which defect is told by any number of workers; one of `chains` has functions
that call one another, and it is asked why one of them is kept, and why two are not folded. Each run must end by itself
within the limit of time, with status 0 (no line, an executable), 1 (the line of a defect, no executable) or 3. Its status, line and bytes
are compared with those of scripts/compare/reference_link.py, which has the same rules in another form, and what it says with
scripts/compare/check_chains.py; --loose leaves that out.
--whole-calls is for a program that shortens no call.
--only K makes and links one copy, and leaves it in DIR.
RVLD is $RVLD where it is not named, else crates/rvld/out/rvld.
"""
import argparse
import collections
import os
import random
import re
import shutil
import subprocess
import sys
import tempfile

TOP = os.path.dirname(os.path.dirname(os.path.dirname(os.path.realpath(__file__))))
sys.path.insert(0, os.path.join(TOP, 'scripts'))
from compare import check_chains, reference_link
from compare.reference_link import KINDS
from elf.constants import ELF, GROUP, RELA, SYMTAB
from elf.read import File, defined, headers
from elf.write import archive
from fuzz.chance_links import chance_chains, chance_link

SHOWN = r'(?:[!-$&-~]|%[0-9A-F]{2})'
DEFECT = re.compile(r'rvld: F(\d\d) (\w+) file=(%s+) section=\d+ place=\d+ name=%s* other=%s*\n' % (SHOWN, SHOWN, SHOWN))
ANSWERS = 'live', 'dead', 'apart', 'same', 'unfoldable', 'unknown'     # to what a link asks why
NO_FILE = re.compile(r'rvld: cannot (?:read|write) %s+\n' % SHOWN)
CXX = '-std=c++17 -fno-exceptions -fno-rtti -fno-threadsafe-statics -ffunction-sections -fdata-sections'.split()
COMPILE = ('clang --target=riscv64-unknown-elf -march=rv64gc -mabi=lp64d -mcmodel=medany -O1 -ffreestanding -fno-builtin '
           '-nostdlib -fcommon -fasynchronous-unwind-tables -c -o').split()


def compiled(folder, source, options=()):
    out = os.path.join(folder, os.path.splitext(os.path.basename(source))[0] + '.o')
    subprocess.run(COMPILE + [out, source, *options], check=True)
    with open(out, 'rb') as file:
        return file.read()


def hard(chance, size):
    """A number that checks are most likely to be wrong about."""
    return chance.choice([0, 1, 2, 3, 4, 7, 8, 16, 24, 63, 64, size - 1, size, size + 1, 0xfff1, 0xfff2, 0xffff, 2 ** 20, 2 ** 20 + 1,
                          2 ** 31 - 1, 2 ** 31, 2 ** 32 - 1, 2 ** 32, 2 ** 63 - 1, 2 ** 63, 2 ** 64 - 8, 2 ** 64 - 1,
                          chance.randrange(size + 1), chance.getrandbits(64)])


def put(contents, at, width, number):
    contents[at:at + width] = (number & (1 << 8 * width) - 1).to_bytes(width, 'little')


SECTION_FIELDS = [(0, 4), (4, 4), (8, 8), (16, 8), (24, 8), (32, 8), (40, 4), (44, 4), (48, 8), (56, 8)]
SYMBOL_FIELDS = [(0, 4), (4, 1), (5, 1), (6, 2), (8, 8), (16, 8)]
RELOCATION_FIELDS = [(0, 8), (8, 4), (12, 4), (16, 8)]
HEADER_FIELDS = [(16, 2), (18, 2), (20, 4), (24, 8), (32, 8), (40, 8), (48, 4), (52, 2), (54, 2), (56, 2), (58, 2), (60, 2), (62, 2)]


def altered_object(original, chance):
    contents, file = bytearray(original), File(original)
    rows, table, count = file.sections, file.table, len(file.sections)

    def field(at, fields):
        offset, width = chance.choice(fields)
        put(contents, at + offset, width, hard(chance, len(contents)))

    groups = [row for row in rows if row.type == GROUP and row.size >= 4 and row.offset + row.size <= len(contents)]
    way = chance.randrange(12 if groups else 10)
    if way == 0:
        at = chance.randrange(len(contents))
        contents[at] ^= 1 << chance.randrange(8)
    elif way == 1:
        contents[chance.randrange(len(contents))] = chance.choice([0, 1, 0x7f, 0x80, 0xff, chance.randrange(256)])
    elif way == 2:
        del contents[chance.randrange(len(contents)):]
    elif way == 3:
        to, of = (table + 64 * chance.randrange(count) for _ in range(2))
        contents[to:to + 64] = contents[of:of + 64]
    elif way in (4, 5):
        field(table + 64 * chance.randrange(count), SECTION_FIELDS)
    elif way == 6:
        field(0, HEADER_FIELDS)
    elif way in (7, 8):
        row = next(row for row in rows if row.type == SYMTAB)
        field(row.offset + 24 * chance.randrange(row.size // 24), SYMBOL_FIELDS)
    elif way == 10:                             # a group's flag word, or one of its members
        row = chance.choice(groups)
        put(contents, row.offset + 4 * chance.randrange(row.size // 4), 4, chance.choice([chance.randrange(count + 2), hard(chance, count)]))
    elif way == 11:                             # the header of a group
        field(table + 64 * rows.index(chance.choice(groups)), SECTION_FIELDS)
    else:
        row = chance.choice([row for row in rows if row.type == RELA])
        field(row.offset + 24 * chance.randrange(row.size // 24), RELOCATION_FIELDS)
    return bytes(contents)


def altered_archive(original, places, chance):
    contents = bytearray(original)
    way = chance.randrange(5)
    if way == 0:
        del contents[chance.randrange(len(contents)):]
    elif way == 1:
        contents[chance.randrange(len(contents))] = chance.randrange(256)
    elif way == 2:                              # within a member's header
        contents[min(chance.choice(places) + chance.randrange(60), len(contents) - 1)] = chance.choice(b' /0129#`\n\0\xff')
    elif way == 3:                              # a member's size, one more or less, or far off
        at = chance.choice(places)
        size = int(contents[at + 48:at + 58])
        size = max(0, chance.choice([size - 1, size + 1, size + 60, size // 2, size * 10, 0, 9999999999]))
        contents[at + 48:at + 58] = b'%-10d' % size
    else:                                       # near a member's beginning, where its own header stands
        at = chance.choice(places) + 60 + chance.randrange(64)
        contents[min(at, len(contents) - 1)] = chance.choice([0, 1, 0xff, chance.randrange(256)])
    return bytes(contents)


def is_alterable(contents):
    """Whether it is an object with symbols, and with relocations in each table of these."""
    if contents[:4] != ELF:
        return False
    rows = File(contents).sections
    return any(row.type == SYMTAB for row in rows) and min((row.size for row in rows if row.type == RELA), default=0) > 0


def several_defects(chance):
    """The files of one to four links, of which some are altered; an altered one may stand in an archive of its own."""
    options, inputs = chance_link(chance)
    for n in range(chance.randrange(4)):
        inputs += [('%d_%s' % (n, name), contents) for name, contents in chance_link(chance)[1]]
    objects = [k for k, (_, contents) in enumerate(inputs) if is_alterable(contents)]
    for k in chance.sample(objects, min(len(objects), chance.randrange(1, 13))):
        name, contents = inputs[k]
        contents = altered_object(contents, chance)
        inputs[k] = (name + '.a', archive([(name, contents)])) if chance.randrange(4) == 0 else (name, contents)
    return options, inputs


def judged(status, line, out):
    """Why a run's end is wrong, or None; and a word for the count."""
    made = os.path.exists(out)
    if status is None:
        return 'it did not end in time', 'late'
    if status < 0:
        return 'a signal ended it: %d' % -status, 'signal'
    if status == 0:
        if line:
            return 'status 0 with a line', '0'
        if not made:
            return 'status 0 without an executable', '0'
        with open(out, 'rb') as file:
            return (None if file.read(4) == ELF else 'the executable is none'), 'linked'
    if status == 1:
        match = DEFECT.fullmatch(line)
        if not match:
            return 'status 1 with a line that is none of a defect', '1'
        if not 1 <= int(match[1]) < len(KINDS) or KINDS[int(match[1])] != match[2]:
            return 'a number and a name that are not of one kind', '1'
        return ('a defect, and an executable' if made else None), 'F%s %s' % (match[1], match[2])
    if status == 3:
        return (None if NO_FILE.fullmatch(line) else 'status 3 with another line'), 'status 3'
    return 'status %d' % status, 'status %d' % status


FIGURES = ['-e', '_Z15work_of_figuresv']


class Maker:
    """Makes copy K of a mode, and the words that link it."""

    def __init__(self, seed, folder, modes):
        sources = os.path.join(TOP, 'samples/programs')
        self.seed = seed
        self.originals = []                     # what is linked as it is, first of all
        if 'groups' in modes:
            self.grouped, *others = [compiled(folder, os.path.join(sources, 'templates', name + '.cc'), CXX)
                                     for name in ('squares', 'figures', 'output')]
            self.others = list(zip(('figures.o', 'output.o'), others))
            self.originals.append((FIGURES, [('x.o', self.grouped)] + self.others))
        if not set(modes) & {'objects', 'archive'}:
            return
        self.object = compiled(folder, os.path.join(sources, 'squares.c'))
        names = ['base', 'cursor', 'expression', 'factor', 'leave', 'memory', 'note', 'orders', 'output', 'shared', 'slots', 'term']   # start.o is apart
        members = [(name + '.o', compiled(folder, os.path.join(sources, 'many', name + '.c'))) for name in names]
        members[3] = ('a_name_of_more_than_15.o', members[3][1])
        members[7] = ('another_name_of_more_than_15.o', members[7][1])
        self.start = compiled(folder, os.path.join(sources, 'many/start.c'))
        self.archive = archive(members, [(name, k) for k, (_, contents) in enumerate(members) for name in defined(contents)])
        self.places = list(headers(self.archive))
        self.originals += [([], [('x.o', self.object)]), ([], [('x.a', self.archive), ('start.o', self.start)])]

    def copy(self, mode, k):
        """The options and the inputs (name, bytes) of run K."""
        chance = random.Random('%d %s %d' % (self.seed, mode, k))
        collected = (['--gc-sections'] if k % 3 == 2 else []) + (['--icf', 'all' if k % 4 == 1 else 'safe'] if k % 2 else [])
        if mode == 'objects':
            return collected, [('x.o', altered_object(self.object, chance))]
        if mode == 'groups':
            copy = [('x.o', altered_object(self.grouped, chance))]
            return FIGURES + collected, copy + self.others if k % 2 else self.others + copy
        if mode == 'archive':
            return collected, [('x.a', altered_archive(self.archive, self.places, chance)), ('start.o', self.start)]
        if mode == 'several':
            return several_defects(chance)
        if mode == 'chains':
            return chance_chains(chance)
        return chance_link(chance)


def link(rvld, words, inputs, folder, limit):
    """The status (None where the limit of time was passed), the line and what was said of one run in this folder."""
    for name, contents in inputs:
        with open(os.path.join(folder, name), 'wb') as file:
            file.write(contents)
    out = os.path.join(folder, 'out')
    if os.path.exists(out):
        os.remove(out)
    try:
        run = subprocess.run([rvld, '-s', '-o', 'out'] + words + [name for name, _ in inputs], cwd=folder, stdin=subprocess.DEVNULL,
                             stdout=subprocess.PIPE, stderr=subprocess.PIPE, timeout=limit)
    except subprocess.TimeoutExpired:
        return None, '', ''
    return run.returncode, run.stderr.decode('latin-1'), run.stdout.decode('latin-1')


def compared(words, inputs, status, line, said, out, whole_calls):
    """Why the end is not that of the reference, or None."""
    words, live, apart = check_chains.split(words)
    _, _, more = reference_link.read_command(words)
    if whole_calls:
        more['relax'] = False
    expected, found, done = reference_link.link([(name.encode(), contents) for name, contents in inputs], **more)
    if status != expected:
        return 'status %s, and not %s %s' % (status, expected, found if expected else '')
    if status == 1:
        return None if line == found + '\n' else 'not the line %r' % found
    texts = check_chains.texts(done, live, apart)
    if said.splitlines() != texts:
        return 'said %r, and not %r' % (said, texts)
    with open(out, 'rb') as file:
        return None if file.read() == found else 'another executable'


def worker(number, words, rvld, modes, maker, folder, report):
    """Every copy K that falls to this worker; its counts and complaints go to the file `report`."""
    os.makedirs(folder, exist_ok=True)
    counts = collections.Counter()
    wrong = []
    for mode in modes:
        for k in range(number, words.count, words.workers):
            options, inputs = maker.copy(mode, k)
            out = os.path.join(folder, 'out')
            status, line, said = link(rvld, options, inputs, folder, words.limit)
            why, word = judged(status, line, out)
            if not why and not words.loose:
                why = compared(options, inputs, status, line, said, out, words.whole_calls)
            counts[mode, word] += 1
            counts.update((mode, answer[0]) for answer in map(str.split, said.splitlines()) if answer and answer[0] in ANSWERS)
            if why:
                wrong.append('%s %d: %s: %r' % (mode, k, why, line[:200]))
    with open(report, 'w') as file:
        file.write(repr((dict(counts), wrong)))


def main():
    reader = argparse.ArgumentParser(usage=__doc__)
    reader.add_argument('rvld', nargs='?', default=os.environ.get('RVLD') or os.path.join(TOP, 'crates/rvld/out/rvld'))
    reader.add_argument('--count', type=int, default=10000)
    reader.add_argument('--mode', choices=['objects', 'groups', 'archive', 'links', 'several', 'chains', 'all'], default='all')
    reader.add_argument('--seed', type=int, default=1)
    reader.add_argument('--workers', type=int, default=3)
    reader.add_argument('--limit', type=float, default=20, help='seconds for one run')
    reader.add_argument('--loose', action='store_true')
    reader.add_argument('--whole-calls', action='store_true')
    reader.add_argument('--only', type=int)
    reader.add_argument('--keep')
    words = reader.parse_args()
    if not os.access(words.rvld, os.X_OK):
        sys.exit('inputs: no program at ' + words.rvld)
    rvld = os.path.abspath(words.rvld)
    modes = ['objects', 'groups', 'archive', 'links', 'several', 'chains'] if words.mode == 'all' else [words.mode]
    if not shutil.which('clang'):
        print('inputs: skipped the altered copies of real files (clang is not there)')
        modes = [mode for mode in modes if mode in ('links', 'several', 'chains')]
    work = tempfile.mkdtemp()
    try:
        maker = Maker(words.seed, work, modes)
        failed = passed = 0
        if words.only is not None:
            for mode in modes:
                folder = os.path.join(words.keep or '.', mode)
                os.makedirs(folder, exist_ok=True)
                options, inputs = maker.copy(mode, words.only)
                status, line, said = link(rvld, options, inputs, folder, words.limit)
                print('%s %d: rvld -s -o out %s' % (mode, words.only, ' '.join(options + [name for name, _ in inputs])))
                print('status %s, %s' % (status, line.strip() or 'no line'))
                print('by the reference: %s' % (compared(options, inputs, status, line, said, os.path.join(folder, 'out'), words.whole_calls) or 'the same'))
            return 0
        for options, inputs in maker.originals:
            status, line, _ = link(rvld, options, inputs, work, words.limit)
            if status == 0:
                passed += 1
            else:
                failed += 1
                print('inputs: the original %s: status %s, %r' % (inputs[0][0], status, line))
        children = []
        for number in range(words.workers):
            child = os.fork()
            if child == 0:
                code = 1
                try:
                    worker(number, words, rvld, modes, maker, os.path.join(work, str(number)), os.path.join(work, 'report-%d' % number))
                    code = 0
                finally:
                    os._exit(code)
            children.append(child)
        counts = collections.Counter()
        for number, child in enumerate(children):
            if os.waitstatus_to_exitcode(os.waitpid(child, 0)[1]) != 0:
                failed += 1
                print('inputs: worker %d failed' % number)
                continue
            with open(os.path.join(work, 'report-%d' % number)) as file:
                own, wrong = eval(file.read())
            counts.update(own)
            for complaint in wrong[:20]:
                print('inputs: ' + complaint)
            failed += len(wrong)
            passed += sum(own.values()) - len(wrong)
        for mode in modes:
            print('%s: %s' % (mode, ', '.join('%s %d' % (word, n) for (of, word), n in sorted(counts.items()) if of == mode)))
        print('%d passed, %d failed' % (passed, failed))
        return 1 if failed else 0
    finally:
        shutil.rmtree(work)


if __name__ == '__main__':
    sys.exit(main())
