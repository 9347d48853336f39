"""What objects and archives have, read from bytes that need not be sound; and objects and archives that are made.

The other scripts read and write by the package `elf` beside this one. This folder is installed alone, each link waits until it is loaded, and what it reads
may be damaged, large and in memory that is mapped: so it has the little that it needs of its own.
"""
import struct

ELF, ARCHIVE, THIN, BITCODE = b'\x7fELF', b'!<arch>\n', b'!<thin>\n', b'BC\xc0\xde'
PROGBITS, SYMTAB, STRTAB, RELA, NOBITS, SYMTAB_SHNDX = 1, 2, 3, 4, 8, 18
WRITE, ALLOC, EXECINSTR, MERGE, COMPRESSED, RETAIN, EXCLUDE = 1, 2, 4, 0x10, 0x800, 0x200000, 0x80000000
GLOBAL, WEAK, NOTYPE, OBJECT, FUNC, FILE, TLS, IFUNC = 0x10, 0x20, 0, 1, 2, 4, 6, 10
UNDEF, ABS, COMMON, XINDEX, R_NONE, R_CALL_PLT = 0, 0xfff1, 0xfff2, 0xffff, 0, 19
HEADER, SYMBOL, ENTRY = struct.Struct('<IIQQQQIIQQ'), struct.Struct('<IBBHQQ'), struct.Struct('<QIIQ')
FAULTS = (struct.error, IndexError, ValueError, OverflowError, StopIteration, AttributeError)    # of damaged files

class Section:
    def __init__(self, row):
        self.name, self.kind, self.flags, _, self.offset, self.size, self.link, self.info, _, _ = row

class Symbol:
    def __init__(self, name, row, word):
        self.name, (_, info, _, self.section, self.value, self.size) = name, row
        if self.section == XINDEX and word:    # the number stands in the table of section indexes
            self.section = int.from_bytes(word, 'little')
        self.binding, self.kind = info & 0xf0, info & 15
        self.defines = bool(self.binding and self.section)    # its name, for other files

class Object:
    """A relocatable ELF-64 object in the view `data`."""

    def __init__(self, data):
        if len(data) < 64 or data[:4] != ELF or data[4] != 2 or data[5] != 1:
            raise ValueError('no ELF-64 object')
        self.data, (self.table,), (count, self.names_at) = data, struct.unpack_from('<Q', data, 40), struct.unpack_from('<HH', data, 60)
        if count == 0 or self.names_at == XINDEX:    # numbers for which the file's header has no room stand in section 0
            first = Section(HEADER.unpack_from(data, self.table))
            count, self.names_at = count or first.size, first.link if self.names_at == XINDEX else self.names_at
        self.sections = [Section(row) for row in HEADER.iter_unpack(data[self.table:self.table + 64 * count])]
        tables = [section for section in self.sections if section.kind == SYMTAB]
        if len(self.sections) != count or len(tables) > 1 or tables and tables[0].size % 24:
            raise ValueError('section table')
        self.symbol_table = tables[0] if tables else Section((0,) * 10)

    def bytes(self, section):
        """The section's bytes in the file."""
        if section.kind == NOBITS or section.offset + section.size > len(self.data):
            raise ValueError('no bytes')
        return self.data[section.offset:section.offset + section.size]

    def section_name(self, index):
        """The bytes of a section's name."""
        return bytes(self.bytes(self.sections[self.names_at])[self.sections[index].name:][:65536]).partition(b'\0')[0]

    def symbols(self):
        """All symbols, in the order of the table."""
        texts = bytes(self.bytes(self.sections[self.symbol_table.link]))
        words = next((bytes(self.bytes(it)) for it in self.sections if it.kind == SYMTAB_SHNDX), b'')
        return [Symbol(texts[row[0]:texts.find(b'\0', row[0])], row, words[4 * k:4 * k + 4])
                for k, row in enumerate(SYMBOL.iter_unpack(self.bytes(self.symbol_table)))]

    def relocations(self):
        """Each table of relocations with its entries: offset, kind, symbol, addend."""
        return ((it, ENTRY.iter_unpack(self.bytes(it))) for it in self.sections if it.kind == RELA and it.size % 24 == 0)

def has(data, name, *span):
    """Whether a name stands in the bytes, or in this span of them, as in a table of names."""
    return data.obj.find(b'\0%s\0' % name, *span) >= 0

def members(data, first=0):
    """The members of an archive, ordinary or thin: name, offset of the data (of a thin one after its header), size; from the one with its header there."""
    thin, at, names = data[:8] == THIN, 8, b''
    if not thin and data[:8] != ARCHIVE:
        raise ValueError('no archive')
    while at < len(data):
        head = bytes(data[at:at + 60])
        name, size = head[:16].rstrip(b' '), head[48:58].rstrip(b' ')
        own = name in (b'/', b'/SYM64/', b'//')
        if at < first and not own:
            at = first
            continue
        if head[58:] != b'`\n' or not size.isdigit():
            raise ValueError('a header that is damaged')
        at, size = at + 60, int(size)
        if name == b'//':
            names = bytes(data[at:at + size])
        elif not own:
            start = int(name[1:]) if name[:1] == b'/' else 0
            yield names[start:names.index(b'/\n', start)] if name[:1] == b'/' else name.partition(b'/')[0], at, size
        if own or not thin:
            at += size + size % 2

def contents(data):
    """What may be objects in a file, as `members` has it: the members of an ordinary archive as far as it is sound, or the file itself, without a name."""
    try:
        yield from members(data) if data[:8] == ARCHIVE else [(None, 0, len(data))]
    except FAULTS:
        pass

def holders(data, name):
    """The member that defines a name, in a list, by the table that archivers put first; None where there is no such table."""
    if data[:8] != ARCHIVE or data[8:24] != b'%-16s' % b'/':
        return None
    try:
        size, count = int(bytes(data[56:66])), int.from_bytes(data[68:72], 'big')
        names = b'\0%s' % data[72 + 4 * count:68 + size]
        entry = 72 + 4 * names.count(b'\0', 1, names.index(b'\0%s\0' % name) + 1)
        return [next(members(data, int.from_bytes(data[entry:entry + 4], 'big')))]
    except FAULTS:
        return []

def object_of(flags, symbols, name=b'.rvld_ld', own=0, code=b'', kind=R_NONE):
    """An object with these flags and symbols (name, binding and type, section, value), and a section of code in which a relocation names the last."""
    strings = b'\0'.join([b'', b'.rela' + name, b'.symtab', b'.strtab'] + [row[0] for row in symbols] + [b''])
    rows = [bytes(24)] + [SYMBOL.pack(strings.index(symbol + b'\0'), info, 0, section, value, 0) for symbol, info, section, value in symbols]
    entry, headers, body = ENTRY.pack(0, kind, len(symbols), 0), [bytes(64)], b''
    for text, kind, own, data, link, info, entsize in (
            (name, PROGBITS, own, code, 0, 0, 0), (b'.rela' + name, RELA, 0, entry if own else b'', 3, 1, 24),
            (b'.symtab', SYMTAB, 0, b''.join(rows), 4, 1, 24), (b'.strtab', STRTAB, 0, strings, 0, 0, 0)):
        headers.append(HEADER.pack(strings.index(text + b'\0'), kind, own, 0, 64 + len(body), len(data), link, info, 8, entsize))
        body += data + bytes(-len(data) % 8)
    head = struct.pack('<4s3B9xHHIQQQIHHHHHH', ELF, 2, 1, 1, 1, 243, 1, 0, 0, 64 + len(body), flags, 64, 0, 0, 64, 5, 4)
    return head + body + b''.join(headers)

def archive_of(pieces):
    """The bytes of an ordinary archive of these members, (name, bytes), in parts."""
    names, at = b''.join(name + b'/\n' for name, _ in pieces), 0
    yield ARCHIVE + b'%-48s%-10d`\n' % (b'//', len(names)) + names + b'\n' * (len(names) % 2)
    for name, data in pieces:
        yield b'%-16s%-12d%-6d%-6d%-8s%-10d`\n' % (b'/%d' % at, 0, 0, 0, b'644', len(data))
        yield data
        yield b'\n' * (len(data) % 2)
        at += len(name) + 2
