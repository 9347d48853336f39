#!/usr/bin/env python3
"""Links the same files with rvld, with a ld.lld that shortens calls (18 and later), and with GNU ld if one is given, and compares their code.

ld.lld puts members of archives in the order in which it pulls them, so it links a second time the files that take part in rvld's link, in rvld's
order. Each call that compilers marked with RELAX is found in rvld's executable and in that one by their maps: how long it is, and where rvld's
is longer why.
Usage: scripts/compare/code_size.py NAME RVLD LLD GNULD|- FOLDER WORD..    WORD: the words of each link; FOLDER: where executables are made
Writes a row of a table (bytes of code by rvld, by ld.lld, by ld.lld in rvld's order, by GNU ld), and under it what differs. The status is 1 where
a link fails, or where rvld's code is larger than ld.lld's in the same order by more than such calls, and thread-local data,
which ld.lld has shorter too. With CODE_SIZE_CALLS=1 the longer calls are named.
"""
import collections
import os
import re
import subprocess
import sys

sys.path.insert(0, os.path.dirname(os.path.dirname(os.path.realpath(__file__))))
from elf.constants import (ALLOC, ARCHIVE, EXECINSTR, NOBITS, R_ALIGN, R_CALL, R_CALL_PLT, R_RELAX, R_TPREL_ADD, R_TPREL_HI20)
from elf.read import File, file_at, members

REACH = {4: (-1048576, 1048574), 2: (-2048, 2046)}


def code(file):
    """The sections of code, and the bytes of all."""
    rows = [section for section in file.written() if section.flags & EXECINSTR]
    return rows, sum(section.size for section in rows)


def objects_of(path):
    """The objects of a file, each with the name that maps have."""
    with open(path, 'rb') as file:
        data = file.read()
    return [('%s(%s)' % (path, name), body) for name, body in members(data)] if data.startswith(ARCHIVE) else [(path, data)]


def rvld_places(path):
    """The addresses of sections in rvld's map, by file, index and name: more than one where members have one name; and the files that the map names."""
    places, files = collections.defaultdict(list), set()
    with open(path) as file:
        for line in file:
            words = line.split()
            if words[0] == 'input':
                places[words[3], int(words[4]), words[5] if len(words) > 5 else ''].append(int(words[1], 16))
            at = {'input': 3, 'folded': 2, 'dropped': 1, 'discarded': 1}.get(words[0])
            if at:
                files.add(words[at])
    return places, files


def lld_places(path, objects):
    """The addresses of sections in ld.lld's map, by file and index. It has names of sections in place of indices: those of one name are in order."""
    places, seen = {}, collections.Counter()
    with open(path) as file:
        for line in file:
            row = re.match(r' *([0-9a-f]+) +[0-9a-f]+ +[0-9a-f]+ +\d+         (\S.*):\((.*)\)$', line)
            if row and row[2] in objects:
                key = row[2], row[3]
                same = [i for i, s in enumerate(objects[row[2]].sections) if s.name == row[3] and s.flags & ALLOC]
                if seen[key] < len(same):
                    places[row[2], same[seen[key]]] = int(row[1], 16)
                seen[key] += 1
    return places


def walk(rows, address, out):
    """How long the calls of a section are that stands at the address, and where; and how many bytes it lost, at calls and elsewhere."""
    calls, lost, relaxed = {}, collections.Counter(), {row[0] for row in rows if row[1] == R_RELAX}
    for offset, kind, _, addend in rows:
        now = address + offset - sum(lost.values())
        if kind == R_ALIGN:
            least = 1 << addend.bit_length()
            lost['alignments'] += addend - -now % least
        elif kind in (R_CALL, R_CALL_PLT) and offset in relaxed:
            word = out.number(now, 4)
            kept = 2 if word & 3 != 3 else 8 if word & 0x7f == 0x17 else 4
            calls[offset] = kept, now
            lost['calls'] += 8 - kept
        elif kind in (R_TPREL_HI20, R_TPREL_ADD) and offset in relaxed:
            word = out.number(now, 4)
            if word & 0x7f != 0x37 if kind == R_TPREL_HI20 else word & 0xfe00707f != 0x33 or word >> 20 & 31 != 4:
                lost['thread-local data'] += 4
    return calls, lost


def output_section(rows, address):
    return next((s.name for s in rows if s.address <= address < s.address + max(s.size, 1)), None)


def signed(value, bits):
    return value - (1 << bits) if value >> (bits - 1) else value


def distance(kept, word):
    """How far a call of 4 or 8 bytes goes, by its own bytes."""
    if kept == 4:
        return signed(word >> 31 & 1, 1) << 20 | (word >> 12 & 0xff) << 12 | (word >> 20 & 1) << 11 | (word >> 21 & 0x3ff) << 1
    return signed(word >> 12 & 0xfffff, 20) * 4096 + signed(word >> 52, 12)


def reason(kept, peer, now, mine, rows, addend, align, unaligned):
    """Why a call is longer than ld.lld's. `unaligned` are the addresses in sections of code whose alignment is 1."""
    far = distance(kept, mine.number(now, kept))
    if addend:
        return 'an addend'
    if align < 2:
        return 'in a section whose alignment is 1'
    if output_section(rows, now + far) is None:
        return 'a weak name that nothing defines'
    if output_section(rows, now) != output_section(rows, now + far):
        return 'a target in another output section, %s' % output_section(rows, now + far)
    if any(now + far in part for part in unaligned):
        return 'a target in a section whose alignment is 1'
    least, most = REACH[peer]
    if least <= far <= most:
        return 'a distance that is allowed, by an upper distance that is not'
    return 'a distance that is not allowed, since code between is longer'


def link(program, words):
    run = subprocess.run([program] + words, capture_output=True, text=True)
    if run.returncode != 0:
        print('code_size: %s: %s' % (program, (run.stdout + run.stderr).split('\n')[0]))
        sys.exit(1)


def in_order(words, taken, folder):
    """The words with the members that take part in place of archives, as files of their own; and by their names the names in maps, and the objects."""
    out, objects = [], {}
    for word in words:
        if not os.path.isfile(word):
            out.append(word)
            continue
        for name, data in objects_of(word):
            if name == word or name in taken:
                path = os.path.join(folder, 'size.%05d.o' % len(objects))
                with open(path, 'wb') as file:
                    file.write(data)
                out.append(path)
                objects[path] = name, File(data)
    return out, objects


def main():
    name, rvld, lld, gnu, folder, words = *sys.argv[1:6], sys.argv[6:]
    path = lambda end: os.path.join(folder, 'size.' + end)
    others = ['--no-relax-gp', '--strip-debug', '-m', 'elf64lriscv']
    link(rvld, ['-o', path('rvld'), '--Map', path('rvld.map')] + words)
    here, taken = rvld_places(path('rvld.map'))
    link(lld, others + ['-o', path('pulled')] + words)
    ordered, objects = in_order(words, taken, folder)
    link(lld, others + ['-o', path('lld'), '-Map=' + path('lld.map')] + ordered)
    there = lld_places(path('lld.map'), {file: elf for file, (_, elf) in objects.items()})
    mine, other = file_at(path('rvld')), file_at(path('lld'))
    (rows, size), (_, peer_size), (_, pulled_size) = code(mine), code(other), code(file_at(path('pulled')))
    gnu_size = '-'
    if gnu != '-':
        link(gnu, others + ['-o', path('gnu')] + ordered)
        gnu_size = '%d' % code(file_at(path('gnu')))[1]

    unaligned = []
    for file, elf in objects.values():
        for index, section in enumerate(elf.sections):
            if section.flags & EXECINSTR and section.align < 2:
                unaligned += [range(at, at + max(section.size, 1)) for at in here.get((file, index, section.name), [])]
    lengths, reasons, lost, peer_lost, fewer, more = collections.Counter(), collections.Counter(), collections.Counter(), collections.Counter(), 0, 0
    for file, (shown, elf) in objects.items():
        relocations = elf.relocations()
        for index, section in enumerate(elf.sections):
            at = here.get((shown, index, section.name))
            if not section.flags & EXECINSTR or section.type == NOBITS or not at or (file, index) not in there:
                continue
            marked = relocations.get(index, [])
            calls, one = walk(marked, at.pop(0), mine)
            peers, two = walk(marked, there[file, index], other)
            lost.update(one)
            peer_lost.update(two)
            addends = {row[0]: row[3] for row in marked if row[1] in (R_CALL, R_CALL_PLT)}
            for offset, (kept, now) in calls.items():
                peer = peers[offset][0]
                lengths[kept] += 1
                if kept > peer:
                    reasons[kept - peer, reason(kept, peer, now, mine, rows, addends[offset], section.align, unaligned)] += 1
                    if os.environ.get('CODE_SIZE_CALLS'):
                        print('  %s, %s at %d' % (shown, section.name, offset))
                    more += kept - peer
                elif kept < peer:
                    fewer += peer - kept
    print('| %s | %d | %d | %d | %s |' % (name, size, pulled_size, peer_size, gnu_size))
    print('  calls of 8, 4 and 2 bytes: %d, %d, %d' % (lengths[8], lengths[4], lengths[2]))
    for what in ('alignments', 'thread-local data'):
        if lost[what] != peer_lost[what]:
            print('  bytes left out at %s: rvld %d, ld.lld %d' % (what, lost[what], peer_lost[what]))
    for (bytes_more, why), count in sorted(reasons.items()):
        print('  %d with %d bytes more than ld.lld\'s: %s' % (count, bytes_more, why))
    if fewer:
        print('  %d bytes fewer than ld.lld\'s at other calls' % fewer)
    by_calls = sum(peer_lost.values()) - sum(lost.values())
    if size - peer_size != by_calls:
        print('  %+d bytes of sections that one of the two leaves out, or between sections' % (size - peer_size - by_calls))
    return 0 if size - peer_size <= more + max(peer_lost['thread-local data'] - lost['thread-local data'], 0) else 1


if __name__ == '__main__':
    sys.exit(main())
