#!/usr/bin/env python3
"""Reads the unwind records of an executable of rvld's, and compares them with those of another linker's executable of the same files.

Usage: scripts/compare/frames.py [--folded] RVLD'S OTHER
Of rvld's: `.eh_frame` is a list of records to its last word; each FDE leads to a CIE, and no two CIEs say the same; each has a range of code of its own, which
is that of the functions of its name; `.eh_frame_hdr` has each FDE once, by address, and a program header leads to it; readelf finds the same ranges.
Of both: the same functions have records, but for those that one of them left out with their code, and a function's record is as long in both, unless each took
another copy of an inline function, and these are not as long; where no function is left out, there are as many records, in as many bytes. LOCAL functions are
counted, but have no names in rvld's. With --folded, where both folded functions, it is only asked which names have records, of those that are alone at their
address in the other: ld.lld folds functions that have records and others that have none into one.
Writes one line: FDEs, bytes of `.eh_frame` and of `.eh_frame_hdr` of rvld's and of the other's, and how many functions with a name only the other has; then what is
wrong. The status is 1 if something is.
"""
import collections
import os
import re
import shutil
import subprocess
import sys

sys.path.insert(0, os.path.dirname(os.path.dirname(os.path.realpath(__file__))))
from elf.constants import EXECINSTR, FUNC, GNU_EH_FRAME, LOCAL, UNDEF
from elf.read import file_at

# DWARF, "Exception Header Encoding" (LSB Core): signed four bytes, from where they stand; the same by way of an address
PCREL_SDATA4, INDIRECT, DATAREL_SDATA4, UDATA4 = 0x1b, 0x80, 0x3b, 0x03

Record = collections.namedtuple('Record', 'at size first last cie')     # of an FDE: where it stands, its bytes, its range, what its CIE says


class Wrong(Exception):
    pass


def word(data, at):
    return int.from_bytes(data[at:at + 4], 'little')


def signed(value):
    return value - (value >> 31 << 32)


def uleb(data, at):
    """A ULEB128 number, and the place after it."""
    value = shift = 0
    while True:
        value |= (data[at] & 127) << shift
        shift += 7
        at += 1
        if data[at - 1] < 128:
            return value, at


def common(file, start, body, at):
    """What a CIE says, its personality by its address; `at` is where its bytes stand in memory. Its FDEs have distances of four bytes, or it is no CIE of ours."""
    end = body.index(0, 5)                      # after its CIE id and version
    letters = body[5:end].decode()
    place = end + 1
    for _ in range(3):                          # alignment of code, of data (as long as a number that is not negative), return address
        _, place = uleb(body, place)
    if letters[:1] != 'z':
        raise Wrong('a CIE of the form %r at 0x%x' % (letters, start))
    said = [body[4:place]]
    _, place = uleb(body, place)
    for letter in letters[1:]:
        encoding = body[place]
        place += 1
        if letter == 'P':
            if encoding & ~INDIRECT != PCREL_SDATA4:
                raise Wrong('a personality in the form 0x%x at 0x%x' % (encoding, start))
            address = at + place + signed(word(body, place))
            said.append(file.number(address, 8) if encoding & INDIRECT else address)
            place += 4
        elif letter == 'R' and encoding != PCREL_SDATA4:
            raise Wrong('ranges in the form 0x%x at 0x%x' % (encoding, start))
    return tuple(said) + (body[place:].rstrip(b'\0'), 'L' in letters)


def records_of(file):
    """The FDEs of an executable in order, what its CIEs say, and the bytes of `.eh_frame` and of `.eh_frame_hdr`."""
    place = next((section for section in file.sections if section.name == '.eh_frame'), None)
    if place is None:
        return [], [], 0, 0, None
    data, cies, found, at = file.data[place.offset:place.offset + place.size], {}, [], 0
    while word(data, at) != 0:
        size = 4 + word(data, at)
        back = word(data, at + 4)
        if back == 0:
            cies[at] = common(file, place.address + at, data[at + 4:at + size], place.address + at + 4)
        else:
            if at + 4 - back not in cies:
                raise Wrong('the FDE at %d leads to no CIE' % at)
            first = place.address + at + 8 + signed(word(data, at + 8))
            found.append(Record(place.address + at, size, first, first + word(data, at + 12), cies[at + 4 - back]))
        at += size
        if at + 4 > len(data):
            raise Wrong('.eh_frame does not end with a word of zero')
    table = next((section for section in file.sections if section.name == '.eh_frame_hdr'), None)
    return found, list(cies.values()), place.size, table.size if table else 0, (at + 4 - len(data), place, table)


def functions_of(file):
    """The names and sizes of the functions at each address, LOCAL ones left out, as rvld's symbol table has none."""
    named = collections.defaultdict(dict)
    for symbol in file.symbols():
        if symbol.type == FUNC and symbol.binding != LOCAL and symbol.section != UNDEF and symbol.size:
            named[symbol.value][symbol.name] = symbol.size
    return named


def shared(file):
    """The addresses that several functions have, or one by several names, LOCAL ones among them."""
    counts = collections.Counter(symbol.value for symbol in file.symbols() if symbol.type == FUNC and symbol.section != UNDEF and symbol.size)
    return {address for address, count in counts.items() if count > 1}


def check(path, file, found, cies, rest, named):
    """What is wrong with the records of rvld's executable."""
    if not found:
        return [] if rest is None else ['there is an .eh_frame without an FDE']
    wrong = []
    left, place, table = rest
    if left:
        wrong.append('.eh_frame goes on after its word of zero: %d bytes' % -left)
    if len(set(cies)) != len(cies):
        wrong.append('%d CIEs, of which %d are different' % (len(cies), len(set(cies))))
    if not {record.cie for record in found} == set(cies):
        wrong.append('a CIE that no FDE leads to')
    ranges = sorted((record.first, record.last) for record in found)
    wrong += ['the ranges from 0x%x and 0x%x have code in common' % (a, b) for (a, a_end), (b, _) in zip(ranges, ranges[1:]) if a_end > b or a == b]
    code = [(section.address, section.address + section.size) for section in file.written() if section.flags & EXECINSTR]
    for record in found:
        if not any(first <= record.first <= record.last <= last for first, last in code):
            wrong.append('the range 0x%x to 0x%x is not in code' % (record.first, record.last))
        sizes = named.get(record.first, {})
        if sizes and record.last - record.first not in sizes.values():
            wrong.append('the range 0x%x to 0x%x is not that of %s' % (record.first, record.last, ', '.join(sizes)))
    segments = [segment for segment in file.segments if segment.type == GNU_EH_FRAME]
    if table is None or [(segment.address, segment.memory, segment.flags) for segment in segments] != [(table.address, table.size, 4)]:
        wrong.append('no program header leads to .eh_frame_hdr alone')
    else:
        data = file.data[table.offset:table.offset + table.size]
        rows = [(table.address + signed(word(data, at)), table.address + signed(word(data, at + 4))) for at in range(12, len(data), 8)]
        if data[:4] != bytes((1, PCREL_SDATA4, UDATA4, DATAREL_SDATA4)) or table.address + 4 + signed(word(data, 4)) != place.address or word(data, 8) != len(rows):
            wrong.append('the first 12 bytes of .eh_frame_hdr are %s' % data[:12].hex())
        if rows != sorted((record.first, record.at) for record in found):
            wrong.append('.eh_frame_hdr has other rows than .eh_frame, or in another order')
    if shutil.which('riscv64-linux-gnu-readelf'):
        run = subprocess.run(['riscv64-linux-gnu-readelf', '--debug-dump=frames', path], capture_output=True, text=True)
        read = sorted((int(a, 16), int(b, 16)) for a, b in re.findall(r' FDE cie=[0-9a-f]+ pc=([0-9a-f]+)\.\.([0-9a-f]+)', run.stdout))
        if run.stderr:
            wrong.append('readelf: ' + run.stderr.split('\n')[0])
        if read != ranges:
            wrong.append('readelf finds %d FDEs, and other ranges' % len(read))
    return wrong


def by_name(found, named):
    """How long the records of each name are, and how long its functions."""
    sizes, lengths = collections.defaultdict(list), collections.defaultdict(list)
    for record in found:
        for name in named.get(record.first, ()):
            sizes[name].append((record.size, record.cie[-1]))
    for names in named.values():
        for name, length in names.items():
            lengths[name].append(length)
    return sizes, lengths


def compare(mine, others, is_folded):
    """What is wrong with rvld's records beside the others'; how many functions rvld left out that have a record in the other's; and of how many it took another copy."""
    (sizes, lengths), (peer_sizes, peer_lengths) = by_name(*mine), by_name(*others)
    wrong, gone, copies = [], 0, 0
    for name in sorted(set(sizes) | set(peer_sizes)):
        count, peer_count, here, there = (len(each[name]) for each in (sizes, peer_sizes, lengths, peer_lengths))
        if here == 0 or there == 0:
            gone += peer_count
        elif is_folded:
            if (count > 0) != (peer_count > 0):
                wrong.append('%s has %d records, and %d in the other' % (name, count, peer_count))
        elif here == there:
            if sorted(sizes[name]) != sorted(peer_sizes[name]):
                if sorted(lengths[name]) != sorted(peer_lengths[name]):
                    copies += 1
                else:
                    wrong.append('%s has records of %s bytes, and of %s in the other' % (name, sorted(sizes[name]), sorted(peer_sizes[name])))
        elif peer_count in (0, there):          # functions of one name, some of which one of the two left out
            if count != (here if peer_count else 0):
                wrong.append('%s stands %d times and has %d records, in the other %d and %d' % (name, here, count, there, peer_count))
    return wrong, gone, copies


def main():
    words = sys.argv[1:]
    is_folded = words[:1] == ['--folded']
    mine, other = words[is_folded:]
    wrong = []
    try:
        file, peer = file_at(mine), file_at(other)
        found, cies, size, table_size, rest = records_of(file)
        peers, _, peer_size, peer_table, _ = records_of(peer)
        named, peer_named = functions_of(file), functions_of(peer)
        wrong = check(mine, file, found, cies, rest, named)
        folded = shared(peer) if is_folded else ()
        apart = {address: names for address, names in peer_named.items() if address not in folded}
        more, gone, copies = compare((found, named), (peers, apart), is_folded)
        wrong += more
        print('%d %d %d | %d %d %d, %d not in rvld\'s' % (len(found), size, table_size, len(peers), peer_size, peer_table, gone))
        if not is_folded and not copies and size > peer_size:
            wrong.append('more bytes of records than the other has')
        if not gone and not copies and not is_folded and len(found) == len(peers) and size != peer_size:
            wrong.append('as many records as the other has, in %d bytes, not %d' % (size, peer_size))
    except Wrong as fault:
        wrong.append(str(fault))
    for line in wrong[:20]:
        print('  ' + line)
    return 1 if wrong else 0


if __name__ == '__main__':
    sys.exit(main())
