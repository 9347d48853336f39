#!/usr/bin/env python3
"""Compares the values at relocated places with those of another linker's executable of the same objects.

Usage: scripts/compare/relocated_values.py OURS PEER MAP OBJECT..    OURS: rvld -s --no-relax; PEER: of GNU ld or ld.lld, with symbols; MAP: its map

Each relocation of a section in memory is worked out by the rules (scripts/compare/reference_link.py) over PEER's own addresses, as its map and its symbols
tell them, and PEER has to have that value there. OURS has to have the bytes that the rules give over rvld's addresses. The objects have no
bytes that alignments may take away (-mno-relax). A piece of merged strings may stand at any place of PEER that has its bytes. A line for each
place that differs; the last line counts the places.
"""
import itertools
import os
import re
import sys

sys.path.insert(0, os.path.dirname(os.path.dirname(os.path.realpath(__file__))))
from compare import reference_link
from compare.reference_link import ENTRIES, LOWER, PAIR, ZERO
from elf.read import file_at
from elf.constants import R_ALIGN, R_GOT_HI20, R_NONE, R_PCREL_HI20, R_RELAX, R_TLS_GD_HI20, R_TPREL_ADD, TLS_SEGMENT, WIDTHS


class Peer:
    """Another linker's executable: what stands at its addresses, and its symbols."""

    def __init__(self, path):
        self.file = file_at(path)
        self.block = next((segment.address for segment in self.file.segments if segment.type == TLS_SEGMENT), 0)
        self.symbols = {name.encode(): value for name, value in self.file.addresses().items()}

    def at(self, address, size):
        return self.file.at(address, size)

    def places_of(self, piece):
        """Each address at which these bytes stand."""
        for load in self.file.loads():
            found = self.file.data.find(piece, load.offset, load.offset + load.size)
            while found >= 0:
                yield load.address + found - load.offset
                found = self.file.data.find(piece, found + 1, load.offset + load.size)


def map_of(name):
    """(file, section) -> address, of a map by GNU ld or by ld.lld."""
    with open(name) as file:
        text = file.read()
    found = {}
    for match in re.finditer(r'^ *([0-9a-f]+) +[0-9a-f]+ +[0-9a-f]+ +\d+ +(\S+):\((\S+)\)$', text, re.M):
        found[match[2], match[3]] = int(match[1], 16)
    for match in re.finditer(r'^ (\S+)\s+0x([0-9a-f]+)\s+0x[0-9a-f]+ (\S+)$', text, re.M):
        found[match[3], match[1]] = int(match[2], 16)
    return found


class Over(reference_link.Link):
    """The rules over another executable's addresses."""

    def over(self, peer, places):
        self.peer, self.block, self.cuts, self.short = peer, peer.block, {}, {}
        self.address = {'got': 0}
        for n, i in self.leaders:
            file = self.files[n]
            if i < file.count and (file.shown, file.sections[i].name.decode()) in places:
                self.address[n, i] = places[file.shown, file.sections[i].name.decode()]
        for name, (sort, n, i) in self.bound.items():
            if sort == 1 and name in peer.symbols:
                self.address[n, self.files[n].symbols[i].common] = peer.symbols[name]

    def linker_address(self, name):
        return self.peer.symbols[name]

    def addresses(self, target):
        """S of a target, each that it may be."""
        if target[0] == 'piece':
            return [at + target[2] for at in self.peer.places_of(target[1][1])]
        return [self.address_of(target)]

    def address_of(self, target):
        if target[0] != 'piece':
            return super().address_of(target)
        return next(address for other, address in self.given.items() if other[1:3] == target[1:3])


def written(link, key, reloc):
    """The bytes that the rules give at a relocation's place, each that they may be, with those of the chain at this place before it."""
    n, i = key
    s = link.files[n].sections[i]
    offset = reloc[0]
    chain = [r for r in link.relocs(key) if r[0] == offset and r[1] not in PAIR and WIDTHS[r[1]]]
    pieces = sorted({target for target in (meant(link, key, r) for r in chain) if target[0] == 'piece'}, key=str)
    size = max(WIDTHS[r[1]] for r in chain)
    for addresses in itertools.product(*(link.addresses(target) for target in pieces)):
        link.given = dict(zip(pieces, addresses))
        out = Window(link.place_of(key, offset), link.files[n].bytes[s.offset + offset:s.offset + offset + size])
        for r in chain:
            link.relocate(key, None, r, out)
        yield bytes(out.bytes)


class Window:
    """A few bytes at an address, as the whole of a file to `relocate`."""

    def __init__(self, address, contents):
        self.first, self.bytes = address - reference_link.BASE, bytearray(contents)

    def __getitem__(self, part):
        return self.bytes[part.start - self.first:part.stop - self.first]

    def __setitem__(self, part, contents):
        self.bytes[part.start - self.first:part.stop - self.first] = contents


def upper_of(link, key, reloc):
    """The relocation that a low half takes its value from; itself for any other."""
    n, _ = key
    if reloc[1] in LOWER:
        target = link.target(n, reloc[2], reloc[1], reloc[3])
        return next(r for r in link.relocs(key) if r[0] == target[2] and r[1] in (*ENTRIES, R_PCREL_HI20))
    return reloc


def meant(link, key, reloc):
    """The target of a relocation, or of the upper half of which it is the lower one."""
    _, kind, index, addend = upper_of(link, key, reloc)
    return link.target(key[0], index, kind, addend)


def entry_is_right(link, key, reloc):
    """Whether the words of the entry that code reads by this upper half are right."""
    n, _ = key
    place = link.place_of(key, reloc[0])
    low = next((r for r in link.relocs(key) if r[1] in LOWER and upper_of(link, key, r) == reloc), None)
    if low is None:
        return True
    first = int.from_bytes(link.peer.at(place, 4), 'little')
    second = int.from_bytes(link.peer.at(link.place_of(key, low[0]), 4), 'little')
    if second & 0x7f == 0x23:
        part = second >> 25 << 5 | second >> 7 & 31
    else:
        part = second >> 20
    high = (first >> 12) - (1 << 20 if first >> 31 else 0)
    entry = place + (high << 12) + part - (0x1000 if part >= 0x800 else 0) - reloc[3]
    target = meant(link, key, reloc)
    words = [int.from_bytes(link.peer.at(entry + 8 * k, 8), 'little') for k in range(2 if reloc[1] == R_TLS_GD_HI20 else 1)]
    less = 0 if reloc[1] == R_GOT_HI20 or target == ZERO else link.block + (0x800 if reloc[1] == R_TLS_GD_HI20 else 0)
    return words[-1] in [(s - less) % 2 ** 64 for s in link.addresses(target)] and words[0] == (1 if reloc[1] == R_TLS_GD_HI20 else words[0])


def main():
    ours, peer, map_name, *names = sys.argv[1:]
    inputs = [(name.encode(), open(name, 'rb').read()) for name in names]
    same, wrong, skipped = 0, 0, 0
    status, found, _ = reference_link.link(inputs, relax=False)
    if status or open(ours, 'rb').read() != found:
        print('%s has not the bytes that the rules give%s' % (ours, ': ' + found if status else ''))
        wrong += 1
    link = Over(inputs, b'_start', False, 'none', False)
    link.over(Peer(peer), map_of(map_name))
    for key in link.leaders:
        for reloc in link.relocs(key):
            offset, kind, index, addend = reloc
            if kind in (R_NONE, R_RELAX, R_ALIGN, R_TPREL_ADD, *PAIR) or key not in link.address:
                continue
            n, i = key
            place = link.place_of(key, offset)
            upper, target = upper_of(link, key, reloc), meant(link, key, reloc)
            if target == ZERO and upper[1] not in ENTRIES or target[0] == 'linker' and target[1] not in link.peer.symbols:
                skipped += 1                    # another linker may write such code anew
                continue
            if upper[1] in ENTRIES:
                if upper is not reloc or entry_is_right(link, key, reloc):
                    same += 1
                    continue
                there = expected = []
            else:
                expected = list(written(link, key, reloc))
                there = link.peer.at(place, len(expected[0])) if expected else b''
                if there in expected:
                    same += 1
                    continue
            wrong += 1
            print('%s %s+0x%x kind %d of %s: %s at 0x%x in %s' % (link.files[n].shown, link.files[n].sections[i].name.decode(), offset, kind,
                                                                 link.files[n].symbols[index].name.decode(), bytes(there).hex(), place, peer))
    print('%d places agree, %d differ, %d skipped' % (same, wrong, skipped))
    return 1 if wrong or not same else 0


if __name__ == '__main__':
    sys.exit(main())
