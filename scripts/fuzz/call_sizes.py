#!/usr/bin/env python3
"""Compares the sizes of calls in rvld's executables with the least safe ones, which are found by trying all.

Usage: scripts/fuzz/call_sizes.py [RVLD] [--count 300] [--seed 1] [--only K] [--keep DIR]

Each link has a few objects, in which up to eight calls stand near the ends of their reach (RISC-V ELF psABI, "Function Call Relaxation"), or
miss one of the conditions on which a call may be shortened. Marks of eight bytes before and after each call tell what size it has in the
executable. First come links by hand: the distances 2,046, 2,048, 1,048,574 and 1,048,576, the first ones past these, and calls that get
longer one after another. Link K of the others is made from the seed and K alone; --only K makes one, and leaves its objects in DIR. RVLD is
$RVLD where it is not named, else crates/rvld/out/rvld.
"""
import argparse
import itertools
import os
import random
import struct
import subprocess
import sys
import tempfile

TOP = os.path.dirname(os.path.dirname(os.path.dirname(os.path.realpath(__file__))))
sys.path.insert(0, os.path.join(TOP, 'scripts'))
from elf.constants import (ABS, ALLOC, EXECINSTR, FUNC, GLOBAL, INFO_LINK, LOCAL, MERGE, NOBITS, NOTYPE, PROGBITS, RELA, RVC, SECTION, STRINGS, STRTAB,
                           SYMTAB, UNDEF, WEAK, WRITE, R_ALIGN, R_CALL, R_CALL_PLT, R_RELAX)
from elf.write import Texts, entry, relocatable, symbol

MOST = {2: (2048, 2046), 4: (1048576, 1048574)}     # backwards, forwards


class Section:
    """A section of an object: its parts are bytes, Label, Call and Padding, one after the other; `zeros` is a number of bytes without contents."""

    def __init__(self, name, flags=ALLOC | EXECINSTR, align=4, parts=(), zeros=None, strings=None):
        self.name, self.flags, self.align, self.parts, self.zeros, self.strings = name, flags, align, list(parts), zeros, strings
        self.file = self.place = None


class Label:
    def __init__(self, is_global=False, offset=0, at_section=False):
        """`offset` is what its symbol's value has more than its place; `at_section` stands for the section's own symbol."""
        self.is_global, self.more, self.at_section = is_global, offset, at_section
        self.section = self.at = None


class Call:
    def __init__(self, target, rd=1, kind=R_CALL_PLT, relax=0, addend=0, words=None):
        """`relax` is where the RELAX stands, counted from the call; None for none."""
        self.target, self.rd, self.kind, self.relax, self.addend, self.words = target, rd, kind, relax, addend, words
        self.section = self.at = self.mark = None


class Fill:
    """So many zeros, of which there may be more or fewer in the end."""

    def __init__(self, size):
        self.size = size


class Padding:
    """An alignment: so many bytes of nops."""

    def __init__(self, size):
        self.size = size


class File:
    def __init__(self, sections, flags=RVC):
        self.sections, self.flags = sections, flags


def size_of(part):
    """The bytes of a part of a section."""
    if isinstance(part, (Fill, Padding)):
        return part.size
    return len(part) if isinstance(part, bytes) else 24 if isinstance(part, Call) else 0


def mark_of(number):
    return b'\xd1\x7e' + struct.pack('<H', number) + b'\x5a\xa5\xc3\x3c'


def nops(size):
    return b'\x13\0\0\0' * (size // 4) + b'\x01\0' * (size % 4 // 2)


def contents_of(section, marks):
    """The bytes of a section, and its relocations (offset, kind, label, addend). Sets where labels and calls stand."""
    out, relocs = bytearray(), []
    for part in section.parts:
        if isinstance(part, Label):
            part.section, part.at = section, len(out)
        elif isinstance(part, Padding):
            relocs.append((len(out), R_ALIGN, None, part.size))
            out += nops(part.size)
        elif isinstance(part, Call):
            part.mark = len(marks)
            marks.append(part)
            out += mark_of(part.mark)
            part.section, part.at = section, len(out)
            out += part.words or struct.pack('<II', 0x17 | part.rd << 7 if part.rd else 0x317, 0x67 | part.rd << 7 | (part.rd or 6) << 15)
            relocs.append((part.at, part.kind, part.target, part.addend))
            if part.relax is not None:
                relocs.append((part.at + part.relax, R_RELAX, None, 0))
            out += mark_of(part.mark)
        else:
            out += bytes(part.size) if isinstance(part, Fill) else part
    return bytes(out), relocs


def objects_of(files):
    """The objects as bytes, and their calls in the order of their marks."""
    marks, bodies = [], []
    for number, file in enumerate(files):
        for place, section in enumerate(file.sections):
            section.file, section.place = number, place
            bodies.append(contents_of(section, marks))
            section.size = section.zeros if section.zeros is not None else len(section.strings or bodies[-1][0])
    labels = {}
    for file in files:
        for section in file.sections:
            for part in section.parts:
                if isinstance(part, Label):
                    labels[part] = 'g%d' % len(labels)
    found, bodies = [], iter(bodies)
    for number, file in enumerate(files):
        texts, rows, locals_, globals_, numbers, relocated = Texts(), [], [bytes(24)], [], {}, []
        own = [next(bodies) for _ in file.sections]
        for place, section in enumerate(file.sections):
            numbers[section] = len(locals_)
            locals_.append(symbol(0, LOCAL, SECTION, place + 1))
        for label, name in labels.items():
            if label.section in file.sections and not label.is_global:
                numbers[label] = numbers[label.section] if label.at_section else len(locals_)
                if not label.at_section:
                    locals_.append(symbol(texts.add(name), LOCAL, NOTYPE, label.section.place + 1, label.at + label.more))
        numbers[None] = 0
        def numbered(target):
            if target not in numbers:
                numbers[target] = len(locals_) + len(globals_)
                if isinstance(target, Label):
                    globals_.append(symbol(texts.add(labels[target]), GLOBAL, NOTYPE, UNDEF))
                else:                           # a word of two: what a name is that no section has
                    globals_.append(symbol(texts.add(target[0]), *target[1]))
            return numbers[target]
        if number == 0:
            globals_.append(symbol(texts.add('_start'), GLOBAL, FUNC, 1))
        for label, name in labels.items():
            if label.section in file.sections and label.is_global:
                numbers[label] = len(locals_) + len(globals_)
                globals_.append(symbol(texts.add(name), GLOBAL, NOTYPE, label.section.place + 1, label.at + label.more))
        for section, (contents, relocs) in zip(file.sections, own):
            sort = NOBITS if section.zeros is not None else PROGBITS
            rows.append((section.name, sort, section.flags, section.zeros if sort == NOBITS else section.strings or contents, 0, 0, section.align,
                         1 if section.strings else 0))
            if relocs:
                relocated.append((section, b''.join(entry(at, numbered(label), kind, addend) for at, kind, label, addend in relocs)))
        symtab = len(rows) + len(relocated) + 1
        for section, entries in relocated:
            rows.append(('.rela' + section.name, RELA, INFO_LINK, entries, symtab, section.place + 1, 8, 24))
        rows.append(('.symtab', SYMTAB, 0, b''.join(locals_ + globals_), symtab + 1, len(locals_), 8, 24))
        rows.append(('.strtab', STRTAB, 0, texts.bytes(), 0, 0, 1, 0))
        found.append(relocatable(rows, file.flags))
    return found, marks


# the rule
def group_of(section):
    name = section.name
    for known in ('.text', '.init_array'):
        if name == known or name.startswith(known + '.'):
            name = known
    return name, section.flags & (WRITE | EXECINSTR)


def priority_of(section):
    front, _, number = section.name.rpartition('.')
    return int(number) if front == '.init_array' and number.isdigit() else 65536


def members_of(files):
    """The members of all output sections: in each by priority, file and section; a pool of merged strings is at its first section's place,
    and has each string once."""
    rows, pools = {}, {}
    for file in files:
        for section in file.sections:
            if section.strings is None:
                rows.setdefault(group_of(section), []).append((priority_of(section), section.file, section.place, section, section.size))
                continue
            key = group_of(section), section.align
            first, texts = pools.setdefault(key, (section, []))
            texts += [text for text in section.strings.split(b'\0')[:-1] if text not in texts]
    for (group, align), (first, texts) in pools.items():
        size = 0
        for text in dict.fromkeys(texts):
            size = -(-size // align) * align + len(text) + 1
        rows.setdefault(group, []).append((65536, first.file, first.place, first, size))
    return {group: [row[3:] for row in sorted(list_, key=lambda row: row[:3])] for group, list_ in rows.items()}


def least_of(files, call):
    """The least size that a call may have: 2 or 4, and 8 where it may not be shortened."""
    target = call.target
    if call.relax != 0 or call.addend or call.words or call.at % 2 or call.section.align < 2 or not isinstance(target, Label):
        return 8
    offset = 0 if target.at_section else target.at + target.more
    if group_of(target.section) != group_of(call.section) or target.section.align < 2 or offset % 2 or target.section.strings is not None:
        return 8
    return 2 if call.rd == 0 and files[call.section.file].flags & RVC else 4


def distances(files, marks):
    """The least size of each call; the numbers of those that may be shortened; of each of these the greatest distance if all have eight bytes,
    and whether it is forwards; and what each takes from each distance by its size."""
    least = [least_of(files, call) for call in marks]
    calls = [k for k, size in enumerate(least) if size < 8]
    rows = members_of(files)

    def places(call):
        target = call.target
        offset = 0 if target.at_section else target.at + target.more
        row = rows[group_of(call.section)]
        order = [section for section, _ in row]
        return (order.index(call.section), call.at), (order.index(target.section), offset), row

    def lost(member, offset, k, size):
        """What call k loses before an offset of a member, if it has this size."""
        if marks[k].section is not member or offset <= marks[k].at:
            return 0
        before = offset - marks[k].at
        return min(before, 8) - min(before, size)

    def between(call, count):
        """Greatest distance as `count` counts the bytes of a member before an offset: (bytes, forwards)."""
        here, there, row = places(call)
        low, high = sorted([here, there])
        if low[0] == high[0]:
            member = row[low[0]][0]
            return count(member, high[1]) - count(member, low[1]), there >= here
        first, size = row[low[0]]
        far = count(first, size) - count(first, low[1])
        for member, size in row[low[0] + 1:high[0]]:
            far += count(None, member.align - 1) + count(member, size)
        last = row[high[0]][0]
        return far + count(None, last.align - 1) + count(last, high[1]), there >= here

    # a distance is a sum of what each call takes from it
    whole = {c: between(marks[c], lambda member, offset: offset) for c in calls}
    taken = {(c, k, size): between(marks[c], lambda member, offset: lost(member, offset, k, size) if member else 0)[0]
             for c in calls for k in calls for size in (2, 4, 8)}
    return least, calls, whole, taken


def wanted(files, marks):
    """The least safe sizes by trying all; and how many calls have more than their own least."""
    least, calls, whole, taken = distances(files, marks)
    safe = []
    for sizes in itertools.product(*[[size for size in (2, 4, 8) if least[c] <= size] for c in calls]):
        for c, size in zip(calls, sizes):
            far = whole[c][0] - sum(taken[c, k, other] for k, other in zip(calls, sizes))
            if size < 8 and far > MOST[size][whole[c][1]]:
                break
        else:
            safe.append(sizes)
    best = tuple(min(column) for column in zip(*safe))
    assert best in safe, 'no least safe sizes'
    answer = [8] * len(marks)
    for c, size in zip(calls, best):
        answer[c] = size
    return answer, sum(answer[c] > least[c] for c in calls)


def sizes_in(executable, marks):
    """The sizes in an executable, by the marks around each call."""
    found = []
    for k, call in enumerate(marks):
        first = executable.index(mark_of(k))
        second = executable.index(mark_of(k), first + 8)
        size = second - first - 8
        code = executable[first + 8:second]
        if size == 4:
            assert int.from_bytes(code, 'little') & 0xfff == (0x6f | call.rd << 7), 'no jal'
        if size == 2:
            assert int.from_bytes(code, 'little') & 0xe003 == 0xa001, 'no c.j'
        found.append(size)
    return found


# links
def by_hand():
    """(what, files, sizes) for the ends of each reach, in one section and over two, and the first distances past them."""
    start = [bytes(4)]
    for rd, size, ahead, back in [(0, 2, 2046, 2048), (1, 4, 1048574, 1048576)]:
        for more in (0, 2):
            want = [size if more == 0 else 2 * size]
            there = Label()
            yield 'ahead %d' % (ahead + more), [File([Section('.text', parts=[*start, Call(there, rd), bytes(ahead + more - size - 8), there, bytes(2)])])], want
            there = Label()
            yield 'back %d' % (back + more), [File([Section('.text', parts=[*start, there, bytes(back + more - 8), Call(there, rd)])])], want
        for more in (0, 1):                     # over two sections: the call's size, its mark, and the alignment less one are between
            want = [size if more == 0 else 2 * size]
            there = Label(True)
            rest = ahead + more - size - 8 - 3
            parts = [*start, Call(there, rd), bytes(rest - rest % 2)]
            yield 'ahead %d over two' % (ahead + more), [File([Section('.text', parts=parts + [bytes(rest % 2)]), Section('.text', parts=[there, bytes(2)])])], want
            there = Label(True)
            rest = back + more - 8 - 3
            yield 'back %d over two' % (back + more), [File([Section('.text', parts=[*start, there, bytes(rest)]), Section('.text', parts=[Call(there, rd)])])], want
    for count in (9, 24, 25, 60):              # each call has but the next one before its target, and is too far from it once that one is longer
        labels = [Label() for _ in range(count)]
        parts = [*start]
        for k, label in enumerate(labels):
            parts += [Call(label, 0), bytes(536), *labels[k - 1:k], bytes(946)]
        yield 'chain of %d' % count, [File([Section('.text', parts=[*parts, bytes(556), labels[-1], bytes(2)])])], [4] * count


def chance_calls(chance):
    """A few objects whose calls stand near the ends of a reach."""
    reach = chance.choice([2048, 2048, 2048, 1048576])
    files = [File([], chance.choice([RVC, RVC, RVC, 0])) for _ in range(chance.choice([1, 1, 2, 3]))]
    even = chance.random() < 0.85
    def bit():
        return bytes(chance.choice([0, 2, 2, 4, 6, 12]) + (0 if even else chance.choice([0, 0, 1])))
    labels = [Label(chance.random() < 0.5 or len(files) > 1, chance.choice([0, 0, 0, 0, 0, 1, 2, 4])) for _ in range(chance.randrange(1, 7))]
    if chance.random() < 0.2:
        labels[0].is_global, labels[0].at_section = len(files) > 1, len(files) == 1
    calls = []
    for _ in range(chance.choice([1, 2, 3, 4, 4, 5, 6, 7, 8])):
        call = Call(chance.choice(labels), chance.choice([0, 0, 1, 1, 5]), chance.choice([R_CALL, R_CALL_PLT]))
        odd = chance.random()
        if odd < 0.04:
            call.relax = chance.choice([None, 4, -2])
        elif odd < 0.06:
            call.addend = chance.choice([2, -4])
        elif odd < 0.08:
            call.words = struct.pack('<II', *chance.choice([(0x13, 0x67), (0x17, 0x13)]))
        elif odd < 0.10:
            call.target = chance.choice([('weak', (WEAK, NOTYPE, UNDEF)), ('fixed', (GLOBAL, NOTYPE, ABS, 0x10400))])
        calls.append(call)
    things = labels + calls
    chance.shuffle(things)
    fill = Fill(reach - 100)
    parts = [bit()]
    wide = chance.randrange(len(things))
    for k, thing in enumerate(things):
        parts += [thing, bit()]
        if k == wide:
            parts += [fill, bit()]
    if even:
        parts = [part[:len(part) // 2 * 2] if isinstance(part, bytes) else part for part in parts]
        if chance.random() < 0.4:
            for _ in range(chance.randrange(1, 4)):
                parts.insert(chance.randrange(1, len(parts)), Padding(chance.choice([2, 6, 14, 30])))
    parts.append(bytes(8))
    # sections of the files in order, with others between
    listed = chance.random() < 0.1
    flags = ALLOC | WRITE if listed else ALLOC | EXECINSTR
    names = ['.init_array.%d' % k for k in (1, 2, 3)] + ['.init_array'] if listed else ['.text', '.text.a', '.text.b', '.text']
    cuts = sorted(chance.randrange(1, len(parts)) for _ in range(chance.choice([0, 1, 2, 3, 4, 6])))
    low = [1, 2, 4] if not even else [2, 2, 4, 4, 8, 16, 64]
    for k, (first, last) in enumerate(zip([0] + cuts, cuts + [len(parts)])):
        file = files[min(k * len(files) // (len(cuts) + 1), len(files) - 1)]
        align = chance.choice(low + ([1] if chance.random() < 0.1 and not any(isinstance(part, Padding) for part in parts) else []))
        file.sections.append(Section(chance.choice(names), flags, align, parts[first:last]))
        other = chance.random()
        if other < 0.15:
            file.sections.append(Section('.text' if not listed else '.data', flags, chance.choice(low), zeros=chance.choice([0, 2, 6, 40])))
        elif other < 0.35 and not listed:
            text = b''.join(chance.choice([b'one\0', b'two\0', b'a longer text\0']) for _ in range(chance.randrange(1, 5)))
            file.sections.append(Section('.text.names', flags | MERGE | STRINGS, chance.choice([1, 2, 4]), strings=text))
        elif other < 0.45:
            file.sections.append(Section('.own', flags, chance.choice(low), [bytes(chance.choice([2, 30]))]))
    for file in files:
        if not file.sections:
            file.sections.append(Section('.own', ALLOC, 1, [bytes(1)]))
    for section in [section for file in files for section in file.sections]:
        at = sum(size_of(part) for part in section.parts)
        for part in reversed(section.parts):    # a label does not stand past the end of its section
            at -= size_of(part)
            if isinstance(part, Label):
                part.more = 0 if part.at_section else min(part.more, sum(size_of(other) for other in section.parts) - at)
    # one call's distance is near the end of its reach, if all have their least sizes, or if some do not
    least, free, whole, taken = distances(files, objects_of(files)[1])
    near = [c for c in free if reach - 100 <= whole[c][0] and least[c] <= 2 * (reach == 2048) + 4 * (reach > 2048)]
    if near:
        c = chance.choice(near)
        far = whole[c][0] - sum(taken[c, k, chance.choice([least[k], least[k], 8])] for k in free)
        fill.size = max(fill.size + MOST[2 if reach == 2048 else 4][whole[c][1]] - far + chance.choice([-6, -4, -2, 0, 0, 1, 2, 4]), 0)
        if even:
            fill.size += fill.size % 2
    return files


def tried(rvld, folder, what, files, want=None):
    """Links and compares; gives a line if something differs, the sizes, and how many calls were raised."""
    contents, marks = objects_of(files)
    names = []
    for k, body in enumerate(contents):
        names.append(os.path.join(folder, '%d.o' % k))
        with open(names[-1], 'wb') as file:
            file.write(body)
    out = os.path.join(folder, 'out')
    ran = subprocess.run([rvld, '-s', '-o', out] + names, capture_output=True, check=False)
    if ran.returncode:
        return '%s: status %d, %s' % (what, ran.returncode, ran.stderr.decode().strip()), [], 0
    with open(out, 'rb') as file:
        found = sizes_in(file.read(), marks)
    answer, raised = wanted(files, marks) if len(marks) <= 8 else (None, 0)        # all sizes of more calls are too many to be tried
    for sizes, whose in [(answer, 'least safe'), (want, 'by hand')]:
        if sizes is not None and sizes != found:
            return '%s: sizes %s, %s %s' % (what, found, whose, sizes), found, 0
    return None, found, raised


def main():
    parser = argparse.ArgumentParser()
    parser.add_argument('rvld', nargs='?', default=os.environ.get('RVLD') or os.path.join(TOP, 'crates/rvld/out/rvld'))
    parser.add_argument('--count', type=int, default=300)
    parser.add_argument('--seed', type=int, default=1)
    parser.add_argument('--only', type=int)
    parser.add_argument('--keep')
    words = parser.parse_args()
    rvld = os.path.abspath(words.rvld)
    if not os.access(rvld, os.X_OK):
        print('call_sizes: no program at ' + rvld)
        return 1
    failed, passed, seen, risen = 0, 0, {2: 0, 4: 0, 8: 0}, 0
    with tempfile.TemporaryDirectory() as folder:
        if words.keep:
            folder = words.keep
            os.makedirs(folder, exist_ok=True)
        links = [] if words.only is not None else [(what, lambda files=files: files, want) for what, files, want in by_hand()]
        for k in range(words.count) if words.only is None else [words.only]:
            links.append(('link %d' % k, lambda k=k: chance_calls(random.Random('%d %d' % (words.seed, k))), None))
        for what, make, want in links:
            line, found, raised = tried(rvld, folder, what, make(), want)
            risen += raised
            for size in found:
                seen[size] += 1
            if line is None:
                passed += 1
            else:
                failed += 1
                print(line)
    print('%d passed, %d failed; %s; %d raised above their least' % (
        passed, failed, ', '.join('%d calls of %d' % (count, size) for size, count in seen.items()), risen))
    return failed > 0


if __name__ == '__main__':
    sys.exit(main())
