"""Inputs that rvld refuses, as equal ones that it takes: what each symbol and each relocation stands for is the same.

A LOCAL symbol past the end of its section, as GCC's anchors are, goes to the section's start, and the way from there is added to the addends that name it.
Not in sections with EXECINSTR, whose bytes move, or MERGE, whose pieces do; nor where a relocation takes more of the symbol than its address. A compressed
section without ALLOC loses the flag: nothing reads it. Sizes stay, so an object is mended where it lies, by patches: (offset in the file, bytes).
"""
import mmap
import os
import struct

from . import objects
from .objects import FAULTS, Object

# The kinds of relocation whose value has the sum of symbol and addend, and those that name a symbol without taking its value.
SUM = {1, 2, 8, 9, 16, 17, 18, 19, 23, 26, 27, 28, 29, 30, 31, 44, 45, 57, 59, 60, 61} | set(range(33, 41)) | set(range(52, 57))
NO_VALUE = {0, 32, 43, 51}
TAIL = bytes.fromhex('1703000067000300')                               # auipc t1, 0; jr t1
PLAIN = (objects.NOTYPE, objects.OBJECT, objects.FUNC, objects.TLS)    # of LOCAL symbols

def mapped(path):
    """The bytes of a regular file; none where it is no such file, is empty or can't be read."""
    try:
        with open(path if os.path.isfile(path) else '', 'rb', 0) as file:
            return memoryview(mmap.mmap(file.fileno(), 0, mmap.MAP_PRIVATE | mmap.MAP_POPULATE, mmap.PROT_READ))
    except (OSError, ValueError):
        return memoryview(b'')

def past_end(code):
    """The numbers of LOCAL symbols that stand past the end of a section whose bytes lie still."""
    tested = objects.EXECINSTR | objects.MERGE | objects.EXCLUDE | objects.ALLOC
    sizes = {i: section.size for i, section in enumerate(code.sections[:0xff00]) if section.flags & tested == objects.ALLOC}
    entries, low = bytes(code.bytes(code.symbol_table)[:24 * code.symbol_table.info]), {i & 255 for i in sizes}
    near = (i for i, byte in enumerate(entries[6::24]) if byte in low)    # the low bytes of section numbers: most symbols stand in code
    rows = ((i, objects.SYMBOL.unpack_from(entries, 24 * i)) for i in near)
    return [i for i, (_, info, _, section, value, _) in rows if value > sizes.get(section, value) and info in PLAIN]

def apart(code):
    """Whether no two sections or tables of the file share a byte, so that a patch of one changes no other."""
    used = [(it.offset, it.offset + it.size) for it in code.sections if it.kind not in (0, objects.NOBITS) and it.size]
    used = sorted(used + [(0, 64), (code.table, code.table + 64 * len(code.sections))])
    return all(one[1] <= other[0] for one, other in zip(used, used[1:]))

def move(code, past):
    """The patches that move these symbols to the starts of their sections, and how many go."""
    table, patches, kept = code.symbol_table, [], set()
    values = {i: struct.unpack_from('<Q', code.data, table.offset + 24 * i + 8)[0] for i in past}
    for section, entries in code.relocations():
        for i, (_, kind, symbol, addend) in enumerate(entries):
            if symbol in values and kind not in NO_VALUE:
                patches.append((symbol, section.offset + 24 * i + 16, (addend + values[symbol]) % 2**64))
                if kind not in SUM:
                    kept.add(symbol)
    patches += [(symbol, table.offset + 24 * symbol + 8, 0) for symbol in values]
    return [(at, struct.pack('<Q', word)) for symbol, at, word in patches if symbol not in kept], len(values) - len(kept)

def mended(code):
    """The patches that an object needs, and what they do, in words."""
    packed = [i for i, section in enumerate(code.sections) if section.flags & (objects.COMPRESSED | objects.ALLOC) == objects.COMPRESSED]
    past = past_end(code)
    if not (packed or past) or not apart(code):
        return [], []
    patches, count = move(code, past)
    patches += [(code.table + 64 * i + 8, struct.pack('<Q', code.sections[i].flags - objects.COMPRESSED)) for i in packed]
    done = [(count, 'LOCAL symbols past the ends of their sections moved to the starts'), (len(packed), 'compressed sections of debug data passed over')]
    return patches, ['%d %s' % it for it in done if it[0]]

def mend(data, name, parts=None):
    """The same for a file, or for members of an ordinary archive, all if none are given; not for those that are damaged, which is rvld's to say."""
    patches, done = [], []
    for member, at, size in objects.contents(data) if parts is None else parts:
        try:
            own, notes = mended(Object(data[at:at + size]))
        except FAULTS:
            continue
        patches += [(at + offset, new) for offset, new in own]
        done += ['%s: %s' % (name if member is None else '%s(%s)' % (name, os.fsdecode(member)), note) for note in notes]
    return patches, done

def thin_members(data, path):
    """The members of a thin archive, as (name, bytes); the names of their files count from the archive's folder."""
    for name, _, size in objects.members(data):
        file = os.path.join(os.path.dirname(path), os.fsdecode(name))
        held = mapped(file)
        if len(held) != size or not os.path.isfile(file):
            raise ValueError('its member %s is not there, or has not the %d bytes that the archive says' % (file, size))
        yield os.path.basename(name), held

def stand_ins(archive, member, file):
    """Members in the place of one whose functions are chosen when the program starts (GNU_IFUNC): each goes on at the archive's own function of the
    name with `__` before it and `_generic` after."""
    code = archive[member[1]:member[1] + member[2]]
    for name in (it.name for it in Object(code).symbols() if it.kind == objects.IFUNC and it.defines):
        target = b'__%s_generic' % name
        parts = objects.holders(archive, target)
        if parts is None:
            parts = (it for it in objects.members(archive) if objects.has(archive, target, it[1], it[1] + it[2]))
        if any(it.name == target and it.defines for _, at, size in parts for it in Object(archive[at:at + size]).symbols()):
            names = [(name, objects.GLOBAL | objects.FUNC, 1, 0), (target, objects.GLOBAL, objects.UNDEF, 0)]
            flags, own = int.from_bytes(code[48:52], 'little'), objects.ALLOC | objects.EXECINSTR
            made = objects.object_of(flags, names, b'.text.' + name, own, TAIL, objects.R_CALL_PLT)
            note = '%s(%s): chosen when the program starts; a stand-in calls %s' % (file, *map(os.fsdecode, (member[0], target)))
            yield name + b'.o', made, note
