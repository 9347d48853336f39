#!/usr/bin/env python3
"""The rules of a link once more, in plain and slow form, to compare rvld with: the first defect's line, or the executable's bytes.

Usage: scripts/compare/reference_link.py [-o OUT] [-e ENTRY] [--gc-sections] [--icf MODE] [--undefined NAMES] [--keep-unique NAMES] [--no-relax] FILE..
as rvld -s, on one thread

It was written from the rules, not from rvld's sources.
"""
import os
import re
import struct
import sys

sys.path.insert(0, os.path.dirname(os.path.dirname(os.path.realpath(__file__))))
from elf.constants import *                     # the ABI's own names

KINDS = ('- NotObject BadHeader Outside BadSection Compressed BadArchive Thin Limit BadSymbol BadName BadReloc RelocKind BadGroup BadUleb '
         'BadAlignment FlagsClash Ifunc BsdName BadFrame Duplicate NoEntry Undefined TooBig Range Odd NoPartner NopsShort').split()
CALLS = R_CALL, R_CALL_PLT
ENTRIES = R_GOT_HI20, R_TLS_GOT_HI20, R_TLS_GD_HI20     # they ask for an entry of the linker's table
LOWER = R_PCREL_LO12_I, R_PCREL_LO12_S          # their value is that of an upper part
ADDS, SUBS, SETS = range(R_ADD8, R_ADD64 + 1), range(R_SUB8, R_SUB64 + 1), range(R_SET8, R_SET32 + 1)
PAIR = R_SET_ULEB128, R_SUB_ULEB128
FRAME_KINDS = R_NONE, R_32, R_64, *ADDS, *SUBS, *range(R_RELAX, R_32_PCREL + 1)     # those that unwind records have
ARRAYS = INIT_ARRAY, FINI_ARRAY, PREINIT_ARRAY
LINKED = PROGBITS, NOTE, NOBITS, *ARRAYS        # types of sections that are linked
ABSOLUTE, IN_COMMON = -1, -2                    # in place of a section's number
BASE = 0x10000
ONCE = (b'.text', b'.rodata', b'.srodata', b'.data.rel.ro', b'.data', b'.bss', b'.sdata', b'.sbss', b'.tdata', b'.tbss',
        b'.preinit_array', b'.init_array', b'.fini_array', b'.ctors', b'.dtors', b'.gcc_except_table')
CLASSES = ('R', 'RX', 'TLS', 'TLS NOBITS', 'RW', 'NOBITS')
RANKS = {
    'TLS': [None],
    'TLS NOBITS': [None],
    'R': ['notes', b'.rodata', b'.srodata', b'.gcc_except_table', None],
    'RX': [b'.init', b'.text', b'.fini', None],
    'RW': [b'.preinit_array', b'.init_array', b'.fini_array', b'.ctors', b'.dtors', b'.data.rel.ro', b'.got', b'.data', None, b'.sdata'],
    'NOBITS': [b'.sbss', b'.bss', None],
}


class Flaw(Exception):
    """A broken check: kind, section, place, other."""


class Defect(Exception):
    """The line of a defect."""


def escaped(text):
    return ''.join(chr(c) if 0x21 <= c <= 0x7e and c != 0x25 else '%%%02X' % c for c in text)


def line_of(kind, file=None, section=0, place=0, name=b'', other=0):
    shown = other if isinstance(other, str) else '%d' % other
    return 'rvld: F%02d %s file=%s section=%d place=%d name=%s other=%s' % (
        kind, KINDS[kind], '-' if file is None else file, section, place, escaped(name), shown)


def up(x, align):
    return -(-x // align) * align


def width_of(kind, addend):
    return addend if kind == R_ALIGN else WIDTHS[kind]


class Section:
    pass


class Symbol:
    pass


class File:
    """One object or member: its head's fields, then its body's."""

    def __init__(self, shown, contents):
        self.shown = shown
        self.bytes = contents

    def number(self, at, size):
        return int.from_bytes(self.bytes[at:at + size], 'little')

    def text(self, table, at):
        """The zero-ended text at a place of a string table, or None."""
        if at >= table.size:
            return None
        end = self.bytes.find(b'\0', table.offset + at, min(table.offset + table.size, len(self.bytes)))
        return None if end < 0 else self.bytes[table.offset + at:end]

    def read_head(self):
        b = self.bytes
        if len(b) > 2 ** 31 - 1:
            raise Flaw(8, 0, len(b), 0)
        if b[:4] != ELF:
            raise Flaw(1, 0, 0, 0)
        if len(b) < 64:
            raise Flaw(2, 0, len(b), 0)
        for at, size, right in ((4, 1, 2), (5, 1, 1), (6, 1, 1), (16, 2, REL), (18, 2, RISCV), (20, 4, 1)):
            if self.number(at, size) != right:
                raise Flaw(2, 0, at, 0)
        self.flags = self.number(48, 4)
        if self.flags & RVE:
            raise Flaw(2, 0, 48, 0)
        self.table = self.number(40, 8)
        if self.table == 0:
            raise Flaw(2, 0, 40, 0)
        if self.number(58, 2) != 64:
            raise Flaw(2, 0, 58, 0)
        self.count = self.number(60, 2)
        if self.count == 0:
            if self.table + 64 > len(b):
                raise Flaw(3, 0, 40, 0)
            self.count = self.number(self.table + 32, 8)
        if self.count == 0:
            raise Flaw(4, 0, 60, 0)
        if self.count > 2 ** 28:
            raise Flaw(8, 0, 60, 0)
        if self.table + 64 * self.count > len(b):
            raise Flaw(3, 0, 40, 0)
        self.sections = []
        for i in range(self.count):
            s = Section()
            s.at = self.table + 64 * i
            (s.at_name, s.type, s.flags, _, s.offset, s.size, s.link, s.info, s.align, s.entsize) = SECTION_HEADER.unpack_from(b, s.at)
            s.name = b''
            s.null = i == 0 or s.type == NULL
            self.sections.append(s)
        names = self.number(62, 2)
        if names == XINDEX:
            names = self.sections[0].link
        if not self.is_texts(names):
            raise Flaw(4, 0, 62, 0)
        names = self.sections[names]
        if names.offset + names.size > len(b):
            raise Flaw(3, 0, 62, 0)
        self.symtab = self.indexes = 0
        for i, s in enumerate(self.sections):
            if s.null:
                continue
            if s.type != NOBITS and s.offset + s.size > len(b):
                raise Flaw(3, i, s.at, 0)
            s.name = self.text(names, s.at_name)
            if s.name is None:
                raise Flaw(10, i, s.at, 0)
            if s.type == SYMTAB:
                if self.symtab or s.entsize != 24 or s.size % 24 or not self.is_texts(s.link) or s.info > s.size // 24:
                    raise Flaw(4, i, s.at, 0)
                self.symtab = i
            if s.type == SYMTAB_SHNDX:
                if (self.indexes or s.entsize != 4 or not 0 < s.link < self.count or self.sections[s.link].type != SYMTAB
                        or s.size != 4 * (self.sections[s.link].size // 24)):
                    raise Flaw(4, i, s.at, 0)
                self.indexes = i
        for s in self.sections:
            loaded = not s.null and s.flags & ALLOC and not s.flags & EXCLUDE
            s.written = loaded and s.type in LINKED and s.name != b'.eh_frame'
            s.frame = loaded and s.type == PROGBITS and s.name == b'.eh_frame'      # it has unwind records
        self.symbols = []
        if not self.symtab:
            return
        table = self.sections[self.symtab]
        texts = self.sections[table.link]
        for i in range(table.size // 24):
            y = Symbol()
            y.at = table.offset + 24 * i
            at_name, info, _, y.shndx, y.value, y.size = SYMBOL.unpack_from(b, y.at)
            y.shndx = self.place(i, y.shndx)
            y.binding, y.type = info >> 4, info & 15
            if i == 0:
                y.name, y.binding, y.type, y.shndx = b'', LOCAL, NOTYPE, UNDEF
                self.symbols.append(y)
                continue
            y.name = self.text(texts, at_name)
            if y.name is None:
                raise Flaw(10, self.symtab, y.at, 0)
            if (y.binding not in (LOCAL, GLOBAL, WEAK, UNIQUE)
                    or y.type not in (NOTYPE, OBJECT, FUNC, SECTION, FILE, COMMON_TYPE, TLS_TYPE, IFUNC)
                    or y.shndx is None
                    or (i < table.info) != (y.binding == LOCAL)
                    or (y.binding == LOCAL and y.shndx == IN_COMMON)
                    or (y.binding != LOCAL and not y.name)
                    or (y.shndx == IN_COMMON and y.type == TLS_TYPE)
                    or (0 < y.shndx < self.count and self.sections[y.shndx].written and y.value > self.sections[y.shndx].size)):
                raise Flaw(9, self.symtab, y.at, 0)
            self.symbols.append(y)

    def place(self, symbol, shndx):
        """The number of a symbol's section, ABSOLUTE or IN_COMMON, or None where the index names nothing."""
        if shndx == UNDEF:
            return UNDEF
        if shndx in (ABS, COMMON):
            return ABSOLUTE if shndx == ABS else IN_COMMON
        if shndx == XINDEX:
            shndx = self.number(self.sections[self.indexes].offset + 4 * symbol, 4) if self.indexes else 0
        elif shndx >= RESERVED:
            return None
        return shndx if 0 < shndx < self.count else None

    def is_texts(self, i):
        return 0 < i < self.count and self.sections[i].type == STRTAB

    def read_body(self):
        relocated = set()
        self.groups = []                        # (section, whether COMDAT, signature, members)
        self.grouped = set()                    # the sections that these groups have
        for s in self.sections:
            s.relocs, s.entries, s.rela = [], [], 0
        for i, s in enumerate(self.sections):
            if s.null:
                continue
            if s.flags & COMPRESSED:
                raise Flaw(5, i, s.at, 0)
            if s.type == REL_SECTION:
                raise Flaw(4, i, s.at, 0)
            if s.flags & ALLOC and not s.flags & EXCLUDE:
                if (s.type not in LINKED or s.flags & WRITE and s.flags & EXECINSTR or (s.flags & LINK_ORDER and s.link >= self.count)
                        or s.written and s.name == b'.eh_frame_hdr'):
                    raise Flaw(4, i, s.at, 0)
                if s.align & (s.align - 1) and s.align or s.align > 2 ** 20:
                    raise Flaw(15, i, s.at, 0)
                if s.type == NOBITS and s.size > 2 ** 32:
                    raise Flaw(8, i, s.at, 0)
            if s.type == RELA:
                if (s.entsize != 24 or s.size % 24 or not self.symtab or s.link != self.symtab or s.info == 0 or s.info >= self.count
                        or s.info in relocated):
                    raise Flaw(4, i, s.at, 0)
                if self.sections[s.info].written or self.sections[s.info].frame:
                    relocated.add(s.info)
                    self.read_relocs(i, s, self.sections[s.info])
            if s.type == GROUP:
                self.read_group(i, s)
        for i, y in enumerate(self.symbols):
            if i == 0:
                continue
            if y.type == IFUNC and y.shndx != UNDEF:
                raise Flaw(17, self.symtab, y.at, 0)
            if y.shndx == IN_COMMON:
                if y.value and y.value & (y.value - 1) or y.value > 2 ** 20:
                    raise Flaw(15, self.symtab, y.at, 0)
                if y.size > 2 ** 32:
                    raise Flaw(8, self.symtab, y.at, 0)
        self.records = {i: self.records_of(i, s) for i, s in enumerate(self.sections) if s.frame}

    def records_of(self, i, s):
        """The unwind records of a section, each (start, length, number of its CIE or None for a CIE, relocations)."""
        data = self.bytes[s.offset:s.offset + s.size]
        records, cies, at = [], {}, 0
        while at < len(data) and data[at:at + 4] != bytes(4):
            length, back = (int.from_bytes(data[at + k:at + k + 4], 'little') for k in (0, 4))
            end, cie = at + 4 + length, None
            bad = len(data) - at < 4 or length == 0xffffffff or length < 4 or end > len(data)
            own = [reloc for reloc in s.relocs if at <= reloc[0] < end]
            if not bad and back:
                first = next((reloc for reloc in own if width_of(reloc[1], reloc[3])), None)
                cie = cies.get(at + 4 - back)
                bad = length < 12 or cie is None or first is not None and first[:2] != (at + 8, R_32_PCREL)
            if bad:
                raise Flaw(19, i, s.offset + at, 0)
            if not back:
                cies[at] = len(records)
            records.append((at, length, cie, own))
            at = end
        for offset, kind, _, addend, place in s.entries:
            width = width_of(kind, addend)
            if width and not any(at + 8 <= offset and offset + width <= at + 4 + length for at, length, _, _ in records):
                raise Flaw(19, s.rela, place, 0)
        return records

    def read_group(self, i, s):
        words = [self.number(at, 4) for at in range(s.offset, s.offset + s.size, 4)]
        if (s.entsize != 4 or s.size == 0 or s.size % 4 or words[0] not in (0, COMDAT) or not self.symtab or s.link != self.symtab
                or s.info >= len(self.symbols)):
            raise Flaw(13, i, s.at, 0)
        for k in words[1:]:
            if k == 0 or k >= self.count or k == i or k in self.grouped:
                raise Flaw(13, i, s.at, 0)
        self.grouped |= set(words[1:])
        self.groups.append((i, words[0] == COMDAT, self.shown_name(self.symbols[s.info]), words[1:]))

    def shown_name(self, y):
        """A symbol's name; for a local one of a section that section's."""
        if y.binding == LOCAL and y.type == SECTION:
            return self.sections[y.shndx].name if 0 < y.shndx < self.count else b''
        return y.name

    def number_len(self, target, offset):
        """How many bytes a ULEB128 number at an offset of a section has; 0 where its end is not among the first ten."""
        contents = self.bytes[target.offset:target.offset + target.size][offset:offset + 10]
        return next((k for k, byte in enumerate(contents, 1) if byte < 128), 0)

    def read_relocs(self, i, s, target):
        entries = []
        for at in range(s.offset, s.offset + s.size, 24):
            offset, kind, index, addend = ENTRY.unpack_from(self.bytes, at)
            if index >= len(self.symbols):
                raise Flaw(11, i, at, 0)
            if target.frame and kind not in FRAME_KINDS:
                raise Flaw(12, i, at, kind)
            if kind in PAIR:
                if target.type == NOBITS or offset >= target.size:
                    raise Flaw(11, i, at, 0)
                if not self.number_len(target, offset):
                    raise Flaw(14, i, at, 0)
                entries.append((offset, kind, index, addend, at))
                continue
            if kind not in WIDTHS:
                raise Flaw(12, i, at, kind)
            if (target.type == NOBITS or kind == R_ALIGN and (addend < 0 or addend % 2) or offset + width_of(kind, addend) > target.size
                    or (kind in LOWER and addend)):
                raise Flaw(11, i, at, 0)
            entries.append((offset, kind, index, addend, at))
        entries.sort(key=lambda entry: entry[0])
        end = moving_end = 0
        for offset, kind, _, addend, at in entries:
            width = self.number_len(target, offset) if kind in PAIR else width_of(kind, addend)
            if width:
                if offset < moving_end or (kind in CALLS + (R_ALIGN,) and offset < end):
                    raise Flaw(11, i, at, 0)
                end = max(end, offset + width)
                if kind in CALLS + (R_ALIGN,):
                    moving_end = max(moving_end, offset + width)
        kinds = [(None, None), *((entry[1], entry[0]) for entry in entries), (None, None)]
        for k, entry in enumerate(entries, 1):
            if (kinds[k][0] == R_SET_ULEB128 and kinds[k + 1] != (R_SUB_ULEB128, entry[0])
                    or kinds[k][0] == R_SUB_ULEB128 and kinds[k - 1] != (R_SET_ULEB128, entry[0])):
                raise Flaw(14, i, entry[4], 0)
        target.relocs, target.entries, target.rela = [entry[:4] for entry in entries], entries, i


def members_of(b):
    """(name, contents) of each member of an archive that is not an index or the table of names."""
    if len(b) > 2 ** 31 - 1:
        raise Flaw(8, 0, len(b), 0)
    if b[:8] != ARCHIVE:
        raise Flaw(7 if b[:8] == THIN else 6, 0, 0, 0)
    found, table, at = [], None, 8
    while at < len(b):
        size = b[at + 48:at + 58].rstrip(b' ')
        if len(b) - at < 60 or b[at + 58:at + 60] != b'`\n' or not size or any(c not in b'0123456789' for c in size):
            raise Flaw(6, 0, at, 0)
        size = int(size)
        if at + 60 + size > len(b):
            raise Flaw(6, 0, at, 0)
        name, contents = b[at:at + 16].rstrip(b' '), b[at + 60:at + 60 + size]
        if name in (b'/', b'/SYM64/'):
            name = None
        elif name == b'//':
            if table is not None:
                raise Flaw(6, 0, at, 0)
            table, name = contents, None
        elif name[:1] == b'/' and len(name) > 1 and all(c in b'0123456789' for c in name[1:]):
            start = int(name[1:])
            end = -1 if table is None or start >= len(table) else table.find(b'/\n', start)
            if end < 0:
                raise Flaw(6, 0, at, 0)
            name = table[start:end]
        elif name[:3] == b'#1/' or name[:9] == b'__.SYMDEF' or b'/' not in name:
            raise Flaw(18, 0, at, 0)
        else:
            name = name[:name.index(b'/')]
        if name is not None:
            found.append((name, contents))
        at += 60 + size + size % 2
    return found


def read_all(inputs):
    """The files by number, None for an archive; the first defect of all heads and archives is raised."""
    files = []

    def check(read, shown):
        try:
            return read()
        except Flaw as flaw:
            kind, section, place, other = flaw.args
            raise Defect(line_of(kind, shown, section, place, b'', other))

    for name, contents in inputs:
        shown = escaped(name)
        if contents[:8] in (ARCHIVE, THIN):
            files.append(None)
            for member, body in check(lambda: members_of(contents), shown):
                if body[:4] == ELF:
                    file = File('%s(%s)' % (shown, escaped(member)), body)
                    file.member = True
                    check(file.read_head, file.shown)
                    files.append(file)
        else:
            file = File(shown, contents)
            file.member = False
            check(file.read_head, shown)
            files.append(file)
    return files


def offers_of(file):
    for i, y in enumerate(file.symbols):
        if y.binding and y.shndx:
            yield i, y, 1 if y.shndx == IN_COMMON else 2 if y.binding == WEAK else 0


def live_of(files, asked=()):
    early = {}
    for n, file in enumerate(files):
        if file:
            for i, y, sort in offers_of(file):
                rank = (3 if file.member else sort, n, i)
                if y.name not in early or rank < early[y.name]:
                    early[y.name] = rank
    live = {n for n, file in enumerate(files) if file and not file.member}
    live |= {early[name][1] for name in asked if name in early}
    queue = list(live)
    while queue:
        for y in files[queue.pop()].symbols:
            if y.binding in (GLOBAL, UNIQUE) and y.shndx == UNDEF and y.name in early:
                n = early[y.name][1]
                if n not in live:
                    live.add(n)
                    queue.append(n)
    return sorted(live)


def output_name(name):
    best = None
    for front in ONCE:
        if (name == front or name.startswith(front + b'.') and len(name) > len(front) + 1) and (best is None or len(front) > len(best)):
            best = front
    return b'.bss' if name == b'COMMON' else best if best is not None else name


def priority_of(name):
    for front in (b'.init_array.', b'.fini_array.'):
        rest = name[len(front):]
        if name.startswith(front) and 1 <= len(rest) <= 5 and all(c in b'0123456789' for c in rest):
            return int(rest)
    return 65536


def class_of(flags, sort):
    if flags & TLS:
        return 'TLS NOBITS' if sort == NOBITS else 'TLS'
    if flags & WRITE:
        return 'NOBITS' if sort == NOBITS else 'RW'
    return 'RX' if flags & EXECINSTR else 'R'


def discarded_of(files, live):
    """The sections (file, section) of COMDAT groups that an earlier group has the signature of."""
    stays, discarded = set(), set()
    for n in live:
        for _, comdat, signature, members in sorted(files[n].groups):
            if comdat and signature in stays:
                discarded |= {(n, k) for k in members}
            if comdat:
                stays.add(signature)
    return discarded


FIXED = (b'__ehdr_start', b'__rela_iplt_start', b'__rela_iplt_end', b'_etext', b'etext', b'_edata', b'edata', b'__bss_start', b'_end', b'end',
         b'_GLOBAL_OFFSET_TABLE_', b'__global_pointer$', b'__preinit_array_start', b'__preinit_array_end', b'__init_array_start',
         b'__init_array_end', b'__fini_array_start', b'__fini_array_end')
IDENTIFIER = re.compile(rb'[A-Za-z_][A-Za-z0-9_]*')
ZERO, UNBOUND = ('zero',), ('none',)
FRAMES_START = 'linker', None                   # the start of what is written of unwind records


def set_of(name):
    """The name of the sections of which a name of the linker means the first or the last place, or None."""
    for front in (b'__start_', b'__stop_'):
        if name.startswith(front) and IDENTIFIER.fullmatch(name[len(front):]):
            return name[len(front):]
    return None


def link(inputs, entry=b'_start', gc=False, icf='none', relax=True, asked=(), unique=()):
    """(1, line, None) or (0, executable, the Link) of inputs (name, bytes) in command order; `gc` is --gc-sections, `icf` the mode of --icf; `asked` and
    `unique` are the names of --undefined and of --keep-unique."""
    try:
        done = Link(inputs, entry, gc, icf, relax, asked, unique)
        return 0, done.executable(), done
    except Defect as defect:
        return 1, defect.args[0], None


class Link:
    """A section or bound common is (file, section); a member of an output section is one of these, ('pool', key) or 'got'."""

    def __init__(self, inputs, entry, gc, icf, relax, asked=(), unique=()):
        self.entry, self.icf, self.relax, self.asked, self.unique = entry, icf, relax, asked, unique
        self.files = read_all(inputs)
        self.live = live_of(self.files, asked)
        for n in self.live:
            try:
                self.files[n].read_body()
            except Flaw as flaw:
                kind, section, place, other = flaw.args
                raise Defect(line_of(kind, self.files[n].shown, section, place, b'', other))
        first = self.files[self.live[0]] if self.live else None
        for n in self.live:
            if self.files[n].flags & FLOAT_ABI != first.flags & FLOAT_ABI:
                raise Defect(line_of(16, self.files[n].shown, 0, self.files[n].flags & FLOAT_ABI, b'', first.flags & FLOAT_ABI))
        self.discarded = discarded_of(self.files, self.live)
        self.bind()
        self.list_sections()
        if self.entry not in self.bound and not self.is_linkers(self.entry):
            raise Defect(line_of(21, None, 0, 0, self.entry))
        self.list_frames()
        self.kept = self.keep() if gc else set(self.sections)
        self.find_undefined()
        self.merge()
        self.leader = {key: key for key in self.kept}
        if icf != 'none':
            self.fold(self.sections_named(unique) | (self.address_taken() if icf == 'safe' else set()))
        self.leaders = sorted(key for key in self.kept if self.leader[key] == key)
        self.plan_frames()
        self.list_entries()
        self.list_outputs()
        self.shorten()
        self.walk()

    # names
    def bind(self):
        self.bound, strong, twice, self.commons = {}, {}, [], {}
        for n in self.live:
            for i, y, sort in offers_of(self.files[n]):
                if (n, y.shndx) in self.discarded:
                    continue
                rank = (sort, n, i)
                if y.name not in self.bound or rank < self.bound[y.name]:
                    self.bound[y.name] = rank
                if sort == 0:
                    if y.name in strong and len(strong[y.name]) == 1:
                        twice.append(y.name)
                    strong.setdefault(y.name, []).append((n, i))
                if sort == 1:
                    size, align = self.commons.get(y.name, (0, 1))
                    self.commons[y.name] = max(size, y.size), max(align, y.value or 1)
        if twice:
            name = min(twice, key=lambda name: strong[name][0])
            (n, i), (other, _) = strong[name][:2]
            raise Defect(line_of(20, self.files[n].shown, 0, i, name, self.files[other].shown))

    def list_sections(self):
        """Written sections and bound commons, each (name, flags, type, size, align) under (file, section)."""
        self.sections = {}
        for n in self.live:
            file = self.files[n]
            count = file.count
            for i, s in enumerate(file.sections):
                if s.written and (n, i) not in self.discarded:
                    self.sections[n, i] = (s.name, s.flags, s.type, s.size, s.align or 1)
            for i, y in enumerate(file.symbols):
                if y.shndx == IN_COMMON:
                    if self.bound[y.name][1:] == (n, i):
                        size, align = self.commons[y.name]
                        self.sections[n, count] = (b'COMMON', WRITE | ALLOC, NOBITS, size, align)
                    y.common = count
                    count += 1
        self.names = {section[0] for section in self.sections.values()}

    def is_linkers(self, name):
        """Whether a name that nothing offers is the linker's."""
        return name in FIXED or set_of(name) in self.names

    def spot(self, n, index, kind=R_NONE, addend=0):
        """What a symbol of a file means in a relocation: ('section', key, offset, rest), ('number', n), ('linker', name), ZERO or UNBOUND."""
        y = self.files[n].symbols[index]
        if y.binding:
            if y.name not in self.bound:
                return ('linker', y.name) if self.is_linkers(y.name) else ZERO if y.binding == WEAK else UNBOUND
            _, n, i = self.bound[y.name]
            y = self.files[n].symbols[i]
        if y.shndx == IN_COMMON:
            return 'section', (n, y.common), 0, addend
        if y.shndx == UNDEF:
            return 'number', 0
        if y.shndx != ABSOLUTE and self.files[n].sections[y.shndx].frame and y.value == 0:
            return FRAMES_START
        if y.shndx == ABSOLUTE or not self.files[n].sections[y.shndx].written:
            return 'number', y.value
        if y.binding == LOCAL and y.type == SECTION:
            size = self.files[n].sections[y.shndx].size
            offset = 0 if kind in ENTRIES else min(max(addend, 0), size)
            return 'section', (n, y.shndx), offset, addend - offset
        return 'section', (n, y.shndx), y.value, addend

    def entry_spot(self):
        if self.entry not in self.bound:
            return 'linker', self.entry
        _, n, i = self.bound[self.entry]
        return self.spot(n, i)

    def sections_named(self, names):
        """The sections in which names stand; a name that is bound to none, to a number or to the linker's symbol stands in none."""
        spots = (self.spot(*self.bound[name][1:]) for name in names if name in self.bound)
        return {spot[1] for spot in spots if spot[0] == 'section'}

    def address_taken(self):
        """The sections to which a kept section refers by more than a branch, a jump, a call or the lower part of a PC-relative address."""
        taken = set()
        for n, i in self.kept:
            for _, kind, index, addend in self.relocs((n, i)):
                if kind not in (R_RELAX, R_ALIGN, R_BRANCH, R_JAL, R_RVC_BRANCH, R_RVC_JUMP) + LOWER + CALLS:
                    spot = self.spot(n, index, kind, addend)
                    if spot[0] == 'section':
                        taken.add(spot[1])
        return taken

    def relocs(self, key):
        n, i = key
        return self.files[n].sections[i].relocs if i < self.files[n].count else []

    # unwind records, each (file, section, number in the section's list)
    def record(self, key):
        """The start of a record, its bytes, the number of its CIE or None, and its relocations."""
        n, i, k = key
        at, length, cie, relocs = self.files[n].records[i][k]
        start = self.files[n].sections[i].offset + at
        return at, self.files[n].bytes[start:start + 4 + length], cie, relocs

    def list_frames(self):
        """`frames`: for each section the FDEs of its functions, in order, each with its first relocation, and the offset and the rest of that."""
        self.frames = {}
        for n in self.live:
            for i, records in sorted(self.files[n].records.items()):
                if (n, i) in self.discarded:
                    continue
                for k, (_, _, cie, relocs) in enumerate(records):
                    first = next((reloc for reloc in relocs if width_of(reloc[1], reloc[3])), None)
                    if cie is not None and first is not None:
                        spot = self.spot(n, first[2], first[1], first[3])
                        if spot[0] == 'section':
                            self.frames.setdefault(spot[1], []).append(((n, i, k), first, spot[2:]))

    def frame_relocs(self, key):
        """For each FDE of a section's functions its other relocations and those of its CIE, with the file and the section that they are of."""
        for (n, i, k), first, _ in self.frames.get(key, ()):
            _, _, cie, relocs = self.record((n, i, k))
            others = list(relocs)
            others.remove(first)
            yield n, i, others + self.record((n, i, cie))[3]

    def plan_frames(self):
        """`written_at`: the records that are written, CIEs first, each with its offset; `uses`: of each FDE its CIE among these."""
        fdes = sorted(key for leader in self.leaders for key, _, _ in self.frames.get(leader, ()))
        same, self.uses = {}, {}
        for n, i, k in fdes:
            cie = n, i, self.record((n, i, k))[2]
            at, data, _, relocs = self.record(cie)
            said = [data]
            for offset, kind, index, addend in relocs:
                target = None if kind == R_RELAX else self.target(n, index, kind, addend)
                said.append((offset - at, kind, target, None if target is None or target[0] in ('section', 'piece') else addend))
            self.uses[n, i, k] = same.setdefault(tuple(said), cie)
        self.fdes, self.written_at, at = fdes, {}, 0
        for key in list(same.values()) + fdes:
            self.written_at[key] = at
            at += len(self.record(key)[1])
        self.frame_size = at + 4 if fdes else 0
        self.header_size = 12 + 8 * len(fdes) if fdes else 0

    # what is kept
    def keep(self):
        by_name, with_it = {}, {key: set() for key in self.sections}
        for key, (name, _, _, _, _) in self.sections.items():
            by_name.setdefault(name, set()).add(key)
        for n in self.live:
            for i, s in enumerate(self.files[n].sections):
                if s.flags & LINK_ORDER and s.link and (n, s.link) in with_it:
                    with_it[n, s.link].add((n, i))
            for _, _, _, group in self.files[n].groups:
                for k in group:
                    if (n, k) in with_it:
                        with_it[n, k] |= {(n, other) for other in group}
        kept = set()
        start = self.entry_spot()
        queue = ([start[1]] if start[0] == 'section' else []) + list(self.sections_named(self.asked))
        queue += [key for key, (name, flags, sort, _, _) in self.sections.items()
                  if sort == NOTE or sort in ARRAYS or name in (b'.init', b'.fini') or flags & RETAIN]
        while queue:
            key = queue.pop()
            if key not in self.sections or key in kept:
                continue
            kept.add(key)
            queue += with_it[key]
            for n, _, relocs in self.frame_relocs(key):
                spots = [self.spot(n, index, kind, addend) for _, kind, index, addend in relocs if kind != R_RELAX]
                queue += [spot[1] for spot in spots if spot[0] == 'section']
            for _, kind, index, addend in self.relocs(key):
                if kind in (R_RELAX, R_ALIGN):
                    continue
                spot = self.spot(key[0], index, kind, addend)
                if spot[0] == 'section':
                    queue.append(spot[1])
                elif spot[0] == 'linker' and spot != FRAMES_START and set_of(spot[1]) is not None:
                    queue += by_name.get(set_of(spot[1]), ())
        return kept

    def find_undefined(self):
        asked = {key: set(self.relocs(key)) for key in self.kept}
        for key in self.kept:
            for n, i, relocs in self.frame_relocs(key):
                asked.setdefault((n, i), set()).update(relocs)
        for n, i in sorted(asked):
            for reloc in self.relocs((n, i)):
                offset, kind, index, _ = reloc
                y = self.files[n].symbols[index]
                if kind in (R_RELAX, R_ALIGN) or reloc not in asked[n, i]:
                    continue
                if y.binding == LOCAL and (n, y.shndx) in self.discarded or y.binding and self.spot(n, index) == UNBOUND:
                    raise Defect(line_of(22, self.files[n].shown, i, offset, self.files[n].shown_name(y)))

    # pieces
    def pieces_of(self, key):
        """The pieces of a merge section, or None."""
        n, i = key
        if i >= self.files[n].count:
            return None
        s = self.files[n].sections[i]
        if s.type != PROGBITS or not s.flags & MERGE or s.flags & WRITE or s.relocs or not s.size or not s.entsize or s.size % s.entsize:
            return None
        data = self.files[n].bytes[s.offset:s.offset + s.size]
        units = [data[at:at + s.entsize] for at in range(0, s.size, s.entsize)]
        if not s.flags & STRINGS:
            return units
        end = bytes(s.entsize)
        if s.entsize not in (1, 2, 4) or units[-1] != end:
            return None
        pieces, first = [], 0
        for at, unit in enumerate(units):
            if unit == end:
                pieces.append(b''.join(units[first:at + 1]))
                first = at + 1
        return pieces

    def merge(self):
        """`pools`: for each key its first section, and its pieces with their positions; `merged`: for a section its pool and pieces."""
        self.pools, self.merged = {}, {}
        for key in sorted(self.kept):
            pieces = self.pieces_of(key)
            if pieces is None:
                continue
            name, flags, _, _, align = self.sections[key]
            s = self.files[key[0]].sections[key[1]]
            pool = output_name(name), flags & ~IN_GROUP, s.entsize, align
            first, places, size = self.pools.get(pool, (key, {}, 0))
            for piece in pieces:
                if piece not in places:
                    places[piece] = up(size, align)
                    size = places[piece] + len(piece)
            self.pools[pool] = first, places, size
            self.merged[key] = pool, pieces

    def target(self, n, index, kind, addend):
        spot = self.spot(n, index, kind, addend)
        if spot[0] != 'section' or spot[1] not in self.merged:
            return spot
        pool, pieces = self.merged[spot[1]]
        offset = spot[2]
        for at, piece in enumerate(pieces):
            if offset < len(piece) or at == len(pieces) - 1:
                return 'piece', (pool, piece), offset, spot[3]
            offset -= len(piece)
        raise AssertionError('no piece')

    # folding
    def items_of(self, n, relocs, start):
        """Of each relocation the offset from a start, the kind, the addend and whether its symbol is one of a section."""
        symbols = self.files[n].symbols
        return tuple((offset - start, kind, addend, symbols[index].binding == LOCAL and symbols[index].type == SECTION)
                     for offset, kind, index, addend in relocs)

    def targets_of(self, n, relocs):
        return [None if kind in (R_RELAX, R_ALIGN) else self.target(n, index, kind, addend) for _, kind, index, addend in relocs]

    def foldable(self, apart):
        """What decides of each section that may be folded, but for these: what has to be equal in any case, and what its relocations lead to."""
        parts, targets = {}, {}
        for key in sorted(self.kept):
            name, flags, sort, size, align = self.sections[key]
            if (sort != PROGBITS or not flags & ALLOC or not flags & EXECINSTR or flags & (WRITE | MERGE | TLS | RETAIN | LINK_ORDER) or not size
                    or name in (b'.init', b'.fini') or IDENTIFIER.fullmatch(name) or key in apart):
                continue
            n, i = key
            file = self.files[n]
            s = file.sections[i]
            said, targets[key] = [], self.targets_of(n, s.relocs)
            for (m, j, k), first, place in self.frames.get(key, ()):
                at, data, cie, relocs = self.record((m, j, k))
                cie_at, cie_data, _, cie_relocs = self.record((m, j, cie))
                others = list(relocs)
                others.remove(first)
                said.append((data[:4] + data[8:], cie_data, place, self.items_of(m, others, at), self.items_of(m, cie_relocs, cie_at)))
                targets[key] += self.targets_of(m, others + cie_relocs)
            parts[key] = file.bytes[s.offset:s.offset + size], flags, align, output_name(name), self.items_of(n, s.relocs, 0), tuple(said)
        return parts, targets

    def fold(self, apart):
        """Folds all sections that may be folded but these."""
        parts, targets = self.foldable(apart)
        count = 0
        while True:
            numbers, firsts = {}, {}
            for key in parts:
                numbers[key] = firsts.setdefault(parts[key], key)
            if len(firsts) == count:
                break
            count = len(firsts)
            for key in parts:
                parts[key] = (numbers[key],) + tuple(
                    ('one of', numbers[t[1]]) + t[2:] if t is not None and t[0] == 'section' and t[1] in numbers else t for t in targets[key])
        self.leader.update(numbers)

    # the table of addresses
    def list_entries(self):
        """`table`: under (symbol, use) the number of its first word; `words` in all."""
        self.table, self.words = {}, 0
        for n, i in self.leaders:
            if (n, i) in self.merged:
                continue
            for _, kind, index, _ in self.relocs((n, i)):
                if kind in ENTRIES and self.entry_key(n, index, kind) not in self.table:
                    self.table[self.entry_key(n, index, kind)] = self.words, n, index
                    self.words += 2 if kind == R_TLS_GD_HI20 else 1

    def entry_key(self, n, index, kind):
        y = self.files[n].symbols[index]
        return (y.name if y.binding else (n, index)), kind

    # output sections
    def list_outputs(self):
        """`outputs`: for each class its output sections in order, each (name, its members in order)."""
        rows = {row: {} for row in CLASSES}
        members = [(key, self.sections[key]) for key in self.leaders if key not in self.merged]
        members += [(('pool', pool), (pool[0], pool[1], PROGBITS, size, pool[3])) for pool, (_, _, size) in self.pools.items()]
        members.append(('got', (b'.got', WRITE | ALLOC, PROGBITS, 8 * self.words, 8)))
        self.member = dict(members)
        for key, (name, flags, sort, _, _) in members:
            place = (1 << 33, 0) if key == 'got' else self.pools[key[1]][0] if key[0] == 'pool' else key
            shown = output_name(name)
            priority = 1 << 17 if key == 'got' else 65536 if key[0] == 'pool' else priority_of(name)
            rows[class_of(flags, sort)].setdefault(shown, []).append((priority, place, key))
        self.outputs = {}
        for row in CLASSES:
            ranked = []
            for name, list_ in rows[row].items():
                list_.sort(key=lambda entry: entry[:2])
                front = 'notes' if row == 'R' and self.member[list_[0][2]][2] == NOTE else name
                rank = RANKS[row]
                ranked.append((rank.index(front if front in rank else None), min(place for _, place, _ in list_), name))
            self.outputs[row] = [(name, [key for _, _, key in rows[row][name]]) for _, _, name in sorted(ranked)]

    # calls
    def shorten(self):
        """`cuts`: for each leader [at, whole, kept] of its calls that keep 4 or 2 bytes, in order."""
        self.cuts, self.short = {key: [] for key in self.leaders}, {}
        if not self.relax:
            return
        row_of, calls = {}, []
        for row in CLASSES:
            for number, (_, list_) in enumerate(self.outputs[row]):
                for place, key in enumerate(list_):
                    row_of[key] = (row, number), place, list_
        for n, i in self.leaders:
            if i >= self.files[n].count or (n, i) in self.merged:
                continue
            s = self.files[n].sections[i]
            relaxed = {offset for offset, kind, _, _ in s.relocs if kind == R_RELAX}
            for offset, kind, index, addend in s.relocs:
                if kind not in CALLS or addend or offset not in relaxed or offset % 2 or (s.align or 1) < 2:
                    continue
                first, second = struct.unpack_from('<II', self.files[n].bytes, s.offset + offset)
                target = self.target(n, index, kind, addend)
                if first & 0x7f != 0x17 or second & 0x7f != 0x67 or target[0] != 'section' or target[2] % 2:
                    continue
                to = self.leader[target[1]]
                if row_of[to][0] != row_of[n, i][0] or self.sections[to][4] < 2:
                    continue
                rd = second >> 7 & 31
                calls.append(((n, i), [offset, 8, 2 if rd == 0 and self.files[n].flags & RVC else 4], to, target[2]))
        for key, cut, _, _ in calls:
            self.cuts[key].append(cut)

        def distance(key, at, to, p):
            """The greatest distance forwards; a negative number is one backwards."""
            if key == to:
                return self.new_offset(to, p) - self.new_offset(key, at)
            _, one, list_ = row_of[key]
            _, two, _ = row_of[to]
            low, low_at, high, high_at = (key, at, to, p) if one < two else (to, p, key, at)
            far = self.new_size(low) - self.new_offset(low, low_at)
            for between in list_[min(one, two) + 1:max(one, two)]:
                far += self.member[between][4] - 1 + self.new_size(between)
            far += self.member[high][4] - 1 + self.new_offset(high, high_at)
            return far if one < two else -far

        rising = True
        while rising:
            rising = False
            for key, cut, to, p in calls:
                far = distance(key, cut[0], to, p)
                while cut[2] < 8 and not (-2048 <= far <= 2046 if cut[2] == 2 else -1048576 <= far <= 1048574):
                    cut[2] *= 2
                    rising = True
        for key in self.leaders:
            self.cuts[key] = sorted(cut for cut in self.cuts[key] if cut[2] < 8)
            self.short.update({(key, at): kept for at, _, kept in self.cuts[key]})

    def new_offset(self, key, offset):
        return offset - sum(min(offset - at, whole) - min(offset - at, kept) for at, whole, kept in self.cuts.get(key, ()) if at < offset)

    def new_size(self, key):
        return self.new_offset(key, self.member[key][3])

    # addresses
    def walk(self):
        self.address, self.shown, self.places, starts, ends = {}, [], [], {}, {}
        short_nops = []
        full = {row: any(self.member[key][3] for _, list_ in self.outputs[row] for key in list_) for row in CLASSES}
        thread = full['TLS'] or full['TLS NOBITS']
        written = full['TLS'] or full['RW'] or full['NOBITS']
        cursor = end_of_headers = BASE + 64 + 56 * (2 + full['RX'] + written + thread + bool(self.fdes))
        widest = max([self.member[key][4] for row in ('TLS', 'TLS NOBITS') for _, list_ in self.outputs[row] for key in list_], default=1)
        self.block = None
        for row in CLASSES:
            if row in ('RX', 'TLS'):
                cursor = up(cursor, 4096)
            if row == 'RW':
                cursor = ends['TLS']
            starts[row] = cursor
            for name, list_ in self.outputs[row]:
                greatest = max(self.member[key][4] for key in list_)
                empty = not any(self.member[key][3] for key in list_)
                start = at = up(cursor, greatest)
                if row in ('TLS', 'TLS NOBITS') and not empty and self.block is None:
                    self.block = start = at = up(cursor, widest)
                for key in list_:
                    at = start if empty else up(at, self.member[key][4])
                    self.address[key] = at
                    if isinstance(key[0], int):
                        short_nops += self.align(key)
                    at += self.new_size(key)
                self.places.append((row, name, start, start if empty else at))
                if not empty:
                    cursor = at
                    flags = 0
                    for key in list_:
                        flags |= self.member[key][1]
                    first = self.member[list_[0]][2]
                    sort = NOBITS if row in ('NOBITS', 'TLS NOBITS') else PROGBITS if first == NOBITS else first
                    self.shown.append((name, sort, flags & (WRITE | ALLOC | EXECINSTR | TLS), start, cursor - start, greatest, row))
            if row == 'R' and self.fdes:
                self.header = up(cursor, 4)
                self.frame = up(self.header + self.header_size, 8)
                cursor = self.frame + self.frame_size
                for name, start, size, align in ((b'.eh_frame_hdr', self.header, self.header_size, 4), (b'.eh_frame', self.frame, self.frame_size, 8)):
                    self.places.append((row, name, start, start + size))
                    self.shown.append((name, PROGBITS, ALLOC, start, size, align, row))
            ends[row] = cursor
        if short_nops:
            raise Defect(min(short_nops)[1])
        if len(self.shown) > 65000:
            raise Defect(line_of(8, None, 0, len(self.shown)))
        image = max([end_of_headers] + [address + size for _, _, _, address, size, _, row in self.shown if row != 'TLS NOBITS']) - BASE
        if image >= 2 ** 31 - 2 ** 20:
            raise Defect(line_of(23, None, 0, image))
        self.starts, self.ends, self.full, self.thread, self.written = starts, ends, full, thread, written
        self.end_of_headers, self.widest = end_of_headers, widest

    def align(self, key):
        """Adds what stays of a member's alignments, in order; gives those for which the bytes do not suffice."""
        wrong = []
        n, i = key
        for offset, kind, _, addend in self.relocs(key):
            if kind != R_ALIGN:
                continue
            boundary = 1
            while boundary <= addend:
                boundary *= 2
            needed = -(self.address[key] + self.new_offset(key, offset)) % boundary
            if needed % 2 or needed > addend:
                wrong.append(((n, i, offset), line_of(27, self.files[n].shown, i, offset, b'', needed)))
            self.cuts[key] = sorted(self.cuts[key] + [[offset, addend, needed]])
        return wrong

    def linker_address(self, name):
        def edge(row, wanted):
            for at, other, start, end in self.places:
                if (at, other) == (row, wanted):
                    return start, end
            for _, other, start, end in self.places:
                if other == wanted:
                    return start, end
            return BASE, BASE

        if name is None:
            return self.frame if self.fdes else BASE
        if name in (b'_etext', b'etext'):
            return self.ends['RX']
        if name in (b'_edata', b'edata'):
            return self.ends['RW']
        if name == b'__bss_start':
            return self.starts['NOBITS']
        if name in (b'_end', b'end'):
            return self.ends['NOBITS']
        if name == b'_GLOBAL_OFFSET_TABLE_':
            return self.address['got']
        if name == b'__global_pointer$':
            return next((start for row, other, start, _ in self.places if (row, other) == ('RW', b'.sdata')), self.starts['RW']) + 0x800
        for array in (b'preinit_array', b'init_array', b'fini_array'):
            if name == b'__' + array + b'_start':
                return edge('RW', b'.' + array)[0]
            if name == b'__' + array + b'_end':
                return edge('RW', b'.' + array)[1]
        if name in FIXED:
            return BASE
        own = [place for place in self.places if place[1] == set_of(name)]
        if not own:
            return BASE
        return own[0][2] if name.startswith(b'__start_') else own[-1][3]

    def address_of(self, target):
        """S of a target."""
        if target[0] == 'section':
            leader = self.leader[target[1]]
            return self.address[leader] + self.new_offset(leader, target[2])
        if target[0] == 'piece':
            pool, piece = target[1]
            return self.address['pool', pool] + self.pools[pool][1][piece] + target[2]
        if target[0] == 'number':
            return target[1]
        return self.linker_address(target[1]) if target[0] == 'linker' else 0

    # values
    def place_of(self, key, offset):
        return self.address[key] + self.new_offset(key, offset)

    def value(self, key, reloc, before, place=None):
        """The number v of a relocation; `before` is what its place holds. None where it is a low half without an upper one. The place of an unwind
        record's relocation is given."""
        n, _ = key
        offset, kind, index, addend = reloc
        target = self.target(n, index, kind, addend)
        if kind in LOWER:
            if target[0] != 'section' or target[1] != key:
                return None
            upper = next((r for r in self.relocs(key) if r[0] == target[2] and r[1] in (*ENTRIES, R_PCREL_HI20)), None)
            return None if upper is None else self.value(key, upper, 0)
        place = self.place_of(key, offset) if place is None else place
        s, a = self.address_of(target), target[3] if target[0] in ('section', 'piece') else addend
        if kind in ENTRIES:
            word, _, _ = self.table[self.entry_key(n, index, kind)]
            return self.address['got'] + 8 * word + a - place
        if kind in (R_TPREL_HI20, R_TPREL_LO12_I, R_TPREL_LO12_S):
            return a if target == ZERO else s + a - (self.block or 0)
        if kind in (R_BRANCH, R_JAL, R_RVC_BRANCH, R_RVC_JUMP, R_PCREL_HI20, R_32_PCREL, R_PLT32) + CALLS:
            return s + a - place
        if kind in ADDS:
            return before + s + a
        if kind in (*SUBS, R_SUB6, R_SUB_ULEB128):
            return before - s - a
        return s + a

    def table_words(self):
        out = b''
        for (_, kind), (_, n, index) in self.table.items():
            target = self.target(n, index, kind, 0)
            s = 0 if target == ZERO else self.address_of(target)
            if kind == R_GOT_HI20:
                words = [s]
            else:
                words = [0 if target == ZERO else s - (self.block or 0) - (0x800 if kind == R_TLS_GD_HI20 else 0)]
                if kind == R_TLS_GD_HI20:
                    words.insert(0, 1)
            out += b''.join((word % 2 ** 64).to_bytes(8, 'little') for word in words)
        return out

    # bytes
    def remaining(self, key):
        """What stays of a member's bytes before its relocations, with its cuts: nops, and nothing yet for calls."""
        n, i = key
        s = self.files[n].sections[i]
        data = self.files[n].bytes[s.offset:s.offset + s.size]
        out, last = b'', 0
        for at, whole, kept in self.cuts[key]:
            out += data[last:at]
            out += bytes(kept) if (key, at) in self.short else (b'\x13\0\0\0' * (kept // 4) + b'\x01\0' * (kept % 4 // 2))
            last = at + whole
        return out + data[last:]

    def executable(self):
        files = self.files
        image_end = max([self.end_of_headers] + [address + size for _, _, _, address, size, _, row in self.shown if 'NOBITS' not in row])
        out = bytearray(image_end - BASE)

        def put(address, data):
            out[address - BASE:address - BASE + len(data)] = data

        for key in self.leaders:
            if key not in self.merged and self.member[key][2] != NOBITS:
                put(self.address[key], self.remaining(key))
        for pool, (_, places, _) in self.pools.items():
            for piece, at in places.items():
                put(self.address['pool', pool] + at, piece)
        put(self.address['got'], self.table_words())
        frames = {}
        for key, at in self.written_at.items():
            _, data, cie, _ = self.record(key)
            if cie is not None:
                data = data[:4] + struct.pack('<I', at + 4 - self.written_at[self.uses[key]]) + data[8:]
            put(self.frame + at, data)
            frames.setdefault(key[:2], []).append(key)
        for key in sorted({*self.leaders, *frames}):
            if key in frames:
                for record in sorted(frames[key]):
                    start, _, _, relocs = self.record(record)
                    for reloc in relocs:
                        self.relocate(key, None, reloc, out, self.frame + self.written_at[record] + reloc[0] - start)
            elif key not in self.merged:
                relocs = list(self.relocs(key))
                for first, reloc in zip([None, *relocs], relocs):
                    self.relocate(key, first, reloc, out)
        if self.fdes:
            put(self.header, self.frame_table())

        # the file's tables
        start = self.address_of(self.entry_target())
        flags = files[self.live[0]].flags & FLOAT_ABI if self.live else 0
        for n in self.live:
            flags |= files[n].flags & (RVC | TSO)
        segments = [(LOAD, 4, BASE, self.ends['R'], self.ends['R'], 4096)]
        if self.full['RX']:
            segments.append((LOAD, 5, self.starts['RX'], self.ends['RX'], self.ends['RX'], 4096))
        if self.written:
            segments.append((LOAD, 6, self.starts['TLS'], self.ends['RW'], self.ends['NOBITS'], 4096))
        if self.thread:
            end = self.ends['TLS'] if self.full['TLS'] else self.block
            segments.append((TLS_SEGMENT, 4, self.block, end, self.ends['TLS NOBITS'], self.widest))
        if self.fdes:
            end = self.header + self.header_size
            segments.append((GNU_EH_FRAME, 4, self.header, end, end, 4))
        rows = [PROGRAM_HEADER.pack(kind, f, at - BASE, at, at, end - at, memory_end - at, align)
                for kind, f, at, end, memory_end, align in segments]
        rows.append(PROGRAM_HEADER.pack(GNU_STACK, 6, 0, 0, 0, 0, 0, 16))
        texts, names = b'\0', []
        for name in [row[0] for row in self.shown] + [b'.shstrtab']:
            names.append(len(texts))
            texts += name + b'\0'
        at_texts = len(out)
        out += texts
        out += bytes(-len(out) % 8)
        table = len(out)
        out += bytes(64)
        for at_name, (_, sort, f, address, size, align, _) in zip(names, self.shown):
            out += SECTION_HEADER.pack(at_name, sort, f, address, address - BASE, size, 0, 0, align, 0)
        out += SECTION_HEADER.pack(names[-1], STRTAB, 0, 0, at_texts, len(texts), 0, 0, 1, 0)
        out[0:64] = FILE_HEADER.pack(IDENT, EXEC, RISCV, 1, start % 2 ** 64, 64, table, flags, 64, 56, len(rows), 64,
                                len(self.shown) + 2, len(self.shown) + 1)
        out[64:64 + 56 * len(rows)] = b''.join(rows)
        return bytes(out)

    def entry_target(self):
        if self.entry not in self.bound:
            return 'linker', self.entry
        _, n, i = self.bound[self.entry]
        return self.target(n, i, R_NONE, 0)

    def frame_table(self):
        """The table of functions with unwind records, in order of address."""
        rows = []
        for key in self.fdes:
            n = key[0]
            _, kind, index, addend = next(reloc for reloc in self.record(key)[3] if width_of(reloc[1], reloc[3]))
            target = self.target(n, index, kind, addend)
            rows.append((self.address_of(target) + (target[3] if target[0] in ('section', 'piece') else addend), self.frame + self.written_at[key]))
        rows.sort(key=lambda row: row[0])
        words = [self.frame - (self.header + 4), len(rows)] + [address - self.header for row in rows for address in row]
        return b'\x01\x1b\x03\x3b' + b''.join((word % 2 ** 32).to_bytes(4, 'little') for word in words)

    def relocate(self, key, first, reloc, out, place=None):
        """Does a relocation; `first` is the one before it. The place of an unwind record's relocation is given."""
        n, i = key
        offset, kind, index, addend = reloc
        file = self.files[n]
        if kind in (R_NONE, R_RELAX, R_ALIGN, R_TPREL_ADD, R_SET_ULEB128):
            return
        at = (self.place_of(key, offset) if place is None else place) - BASE
        width = 0 if kind == R_SUB_ULEB128 else WIDTHS[kind]

        def number(where, size):
            return int.from_bytes(out[where:where + size], 'little')

        def store(where, size, v):
            out[where:where + size] = (v % (1 << 8 * size)).to_bytes(size, 'little')

        def fields(where, size, runs, v):
            """Puts runs (high bit, low bit, v's high bit)."""
            word = number(where, size)
            for high, low, of in runs:
                mask = (1 << high - low + 1) - 1
                word = word & ~(mask << low) | (v >> of - (high - low) & mask) << low
            store(where, size, word)

        v = self.value(key, reloc, self.value(key, first, 0) if kind == R_SUB_ULEB128 else number(at, width), place)

        def stop(defect, v):
            y = file.symbols[index]
            raise Defect(line_of(defect, file.shown, i, offset, file.shown_name(y), v % 2 ** 64))

        def within(low, high, even=False):
            if even and v % 2:
                stop(25, v)
            if not low <= v <= high:
                stop(24, v)

        if v is None:
            stop(26, 0)
        if (key, offset) in self.short and kind in CALLS:
            s = file.sections[i]
            rd = struct.unpack_from('<I', file.bytes, s.offset + offset + 4)[0] >> 7 & 31
            kind = R_JAL if self.short[key, offset] == 4 else R_RVC_JUMP
            store(at, WIDTHS[kind], 0x6f | rd << 7 if kind == R_JAL else 0xa001)
        if kind == R_SUB_ULEB128:
            count = file.number_len(file.sections[i], offset)
            within(0, 2 ** min(7 * count, 64) - 1)
            for k in range(count):
                out[at + k] = out[at + k] & 0x80 | v >> 7 * k & 0x7f
            return
        upper = [(31, 12, 19)]
        lower = {R_PCREL_LO12_I: 'I', R_LO12_I: 'I', R_TPREL_LO12_I: 'I', R_PCREL_LO12_S: 'S', R_LO12_S: 'S', R_TPREL_LO12_S: 'S'}
        if kind in (R_64, *ADDS, *SUBS, *SETS):
            store(at, width, v)
        elif kind == R_32:
            within(-2 ** 31, 2 ** 32 - 1)
            store(at, 4, v)
        elif kind in (R_32_PCREL, R_PLT32):
            within(-2 ** 31, 2 ** 31 - 1)
            store(at, 4, v)
        elif kind in (R_SUB6, R_SET6):
            fields(at, 1, [(5, 0, 5)], v)
        elif kind == R_BRANCH:
            within(-4096, 4094, True)
            fields(at, 4, [(31, 31, 12), (30, 25, 10), (11, 8, 4), (7, 7, 11)], v)
        elif kind == R_JAL:
            within(-1048576, 1048574, True)
            fields(at, 4, [(31, 31, 20), (30, 21, 10), (20, 20, 11), (19, 12, 19)], v)
        elif kind == R_RVC_BRANCH:
            within(-256, 254, True)
            fields(at, 2, [(12, 12, 8), (11, 10, 4), (6, 5, 7), (4, 3, 2), (2, 2, 5)], v)
        elif kind == R_RVC_JUMP:
            within(-2048, 2046, True)
            fields(at, 2, [(12, 12, 11), (11, 11, 4), (10, 9, 9), (8, 8, 10), (7, 7, 6), (6, 6, 7), (5, 3, 3), (2, 2, 5)], v)
        elif kind in lower:
            fields(at, 4, [(31, 20, 11)] if lower[kind] == 'I' else [(31, 25, 11), (11, 7, 4)], v)
        else:
            within(-2 ** 31 - 0x800, 2 ** 31 - 0x801)
            fields(at, 4, upper, v + 0x800 >> 12)
            if kind in CALLS:
                fields(at + 4, 4, [(31, 20, 11)], v)


def read_command(words):
    """The executable's name, the inputs (name, bytes) or the name of one that can't be read, and what `link` takes beside them."""
    out, names, more = 'a.out', [], {}
    words = iter(words)
    for word in words:
        if word == '-o':
            out = next(words)
        elif word == '-e':
            more['entry'] = next(words).encode()
        elif word == '--threads':
            next(words)
        elif word == '--gc-sections':
            more['gc'] = True
        elif word == '--icf':
            more['icf'] = next(words)
        elif word in ('--undefined', '--keep-unique'):
            more['asked' if word == '--undefined' else 'unique'] = next(words).encode().split(b',')
        elif word == '--no-relax':
            more['relax'] = False
        elif word != '-s':
            names.append(word)
    inputs = []
    for name in names:
        try:
            with open(name, 'rb') as file:
                inputs.append((name.encode(), file.read()))
        except OSError:
            return out, name, more
    return out, inputs, more


def main():
    out, inputs, more = read_command(sys.argv[1:])
    if isinstance(inputs, str):
        print('rvld: cannot read ' + escaped(inputs.encode()), file=sys.stderr)
        return 3
    status, found, _ = link(inputs, **more)
    if status:
        print(found, file=sys.stderr)
    else:
        with open(out, 'wb') as file:
            file.write(found)
        os.chmod(out, 0o755)
    return status


if __name__ == '__main__':
    sys.exit(main())
