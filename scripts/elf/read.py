"""Reads sound ELF-64 files and archives."""
import collections

from .constants import (ALLOC, ARCHIVE, ENTRY, FILE_HEADER, LOAD, LOCAL, NOBITS, PROGRAM_HEADER, RELA, SECTION_HEADER, SYMBOL, SYMTAB, SYMTAB_SHNDX,
                        UNDEF, XINDEX)

Segment = collections.namedtuple('Segment', 'type flags offset address physical size memory align')
Section = collections.namedtuple('Section', 'name type flags address offset size link info align entsize')
Symbol = collections.namedtuple('Symbol', 'name binding type section value size')


class File:
    """The tables of an object or an executable."""

    def __init__(self, data):
        self.data = data
        (_, self.type, self.machine, _, self.entry, segments, self.table, self.flags, _, _, count, _, sections, names) = FILE_HEADER.unpack_from(data)
        self.segments = [Segment(*PROGRAM_HEADER.unpack_from(data, segments + PROGRAM_HEADER.size * k)) for k in range(count)]
        if not sections or names == XINDEX:     # numbers for which the file header has no room stand in section 0
            first = Section(*SECTION_HEADER.unpack_from(data, self.table))
            sections, names = sections or first.size, first.link if names == XINDEX else names
        rows = [SECTION_HEADER.unpack_from(data, self.table + SECTION_HEADER.size * k) for k in range(sections)]
        self.sections = [Section(self.text(rows[names][4], row[0]), *row[1:]) for row in rows]

    def text(self, table, at):
        """The text at a place of the string table that begins at this offset of the file."""
        return self.data[table + at:self.data.index(b'\0', table + at)].decode('utf-8', 'surrogateescape')

    def symbols(self):
        """All symbols, in order."""
        words = next((self.data[table.offset:table.offset + table.size] for table in self.sections if table.type == SYMTAB_SHNDX), b'')

        def place(k, section):
            return section if section != XINDEX or not words else int.from_bytes(words[4 * k:4 * k + 4], 'little')

        return [Symbol(self.text(self.sections[table.link].offset, name), info >> 4, info & 15, place(k, section), value, size)
                for table in self.sections if table.type == SYMTAB
                for k, (name, info, _, section, value, size) in enumerate(SYMBOL.iter_unpack(self.data[table.offset:table.offset + table.size]))]

    def addresses(self):
        """The values of the symbols that are defined, by name, LOCAL ones left out."""
        return {symbol.name: symbol.value for symbol in self.symbols() if symbol.binding != LOCAL and symbol.section != UNDEF}

    def relocations(self):
        """The entries (offset, type, symbol, addend) of each section that has some, by its index, in order of their offsets."""
        found = collections.defaultdict(list)
        for table in self.sections:
            if table.type == RELA:
                found[table.info] += ENTRY.iter_unpack(self.data[table.offset:table.offset + table.size])
        return {index: sorted(rows, key=lambda row: row[0]) for index, rows in found.items()}

    def loads(self):
        return [segment for segment in self.segments if segment.type == LOAD]

    def at(self, address, size):
        """The bytes at an address, zeros where the file has none; None where nothing is loaded."""
        for load in self.loads():
            if load.address <= address and address + size <= load.address + load.memory:
                first = load.offset + address - load.address
                return self.data[first:min(first + size, load.offset + load.size)].ljust(size, b'\0')
        return None

    def number(self, address, size):
        """The number at an address; an error where nothing is loaded."""
        found = self.at(address, size)
        if found is None:
            raise LookupError('nothing is loaded at 0x%x' % address)
        return int.from_bytes(found, 'little')

    def written(self):
        """The sections with bytes in memory."""
        return [section for section in self.sections if section.flags & ALLOC and section.type != NOBITS]


def file_at(path):
    with open(path, 'rb') as file:
        return File(file.read())


def defined(contents):
    """The names that an object offers, in order: those of its symbols that are neither local nor UNDEF."""
    return [symbol.name for symbol in File(contents).symbols() if symbol.binding != LOCAL and symbol.section != UNDEF]


def headers(contents):
    """The places of the headers of an archive's members, index and table of names among them."""
    at = len(ARCHIVE)
    while at + 60 <= len(contents):
        yield at
        size = int(contents[at + 48:at + 58])
        at += 60 + size + size % 2


def members(contents):
    """The name and the bytes of each member of an archive; two may have one name."""
    texts = b''
    for at in headers(contents):
        name, size = contents[at:at + 16].rstrip(), int(contents[at + 48:at + 58])
        body = contents[at + 60:at + 60 + size]
        if name == b'//':
            texts = body
        elif name not in (b'/', b'/SYM64/'):
            name = texts[int(name[1:]):].split(b'/\n')[0] if name[:1] == b'/' else name.rstrip(b'/')
            yield name.decode('utf-8', 'surrogateescape'), body
