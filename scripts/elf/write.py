"""Writes relocatable objects and archives as bytes, for the scripts that need many of them or very large ones."""
from .constants import (ALLOC, ARCHIVE, ENTRY, EXECINSTR, FILE_HEADER, FUNC, GLOBAL, IDENT, INFO_LINK, NOBITS, NOTYPE, PROGBITS, REL, RELA, RESERVED,
                        RISCV, R_64, R_CALL_PLT, SECTION_HEADER, STRTAB, SYMBOL, SYMTAB, SYMTAB_SHNDX, UNDEF, WEAK, WRITE, XINDEX)

CALL = bytes.fromhex('97000000e7800000')        # auipc ra, 0; jalr ra, 0(ra)
RETURN = bytes.fromhex('67800000')
NOP = bytes.fromhex('13000000')

ELSEWHERE = 1 << 32                             # added to the number of a symbol's section: it stands in the table of section indexes


class Texts:
    """A string table: a zero byte, then the texts in order, none shared."""

    def __init__(self):
        self.parts = [b'\0']
        self.size = 1

    def add(self, text):
        if not text:
            return 0
        at = self.size
        self.parts.append(text.encode() + b'\0')
        self.size += len(text) + 1
        return at

    def bytes(self):
        return b''.join(self.parts)


def symbol(name, binding, sort, section, value=0, size=0):
    return SYMBOL.pack(name, binding << 4 | sort, 0, section if section < ELSEWHERE else XINDEX, value, size)


def placed(section):
    """The number of a section as `symbol` takes it: one for which an entry has no room stands elsewhere."""
    return section if section < RESERVED else ELSEWHERE + section


def indexes(places, at_symtab):
    """The table of section indexes beside the symbol table of this number, as a section; the places are those of its symbols, symbol 0 first."""
    words = b''.join((place - ELSEWHERE if place >= ELSEWHERE else 0).to_bytes(4, 'little') for place in places)
    return ('.symtab_shndx', SYMTAB_SHNDX, 0, words, at_symtab, 0, 4, 4)


def entry(offset, symbol_index, kind, addend=0):
    return ENTRY.pack(offset, kind, symbol_index, addend)


def relocatable(sections, flags=5, room=RESERVED):
    """An object of these sections, from number 1 on; each is (name, type, flags, contents, link, info, alignment, entry size),
    contents being a number of bytes for NOBITS. The table of section names is added as the last section. Its number, and how many sections
    there are, stand in section 0 where they are `room` or more."""
    names = Texts()
    sections = [(names.add(row[0]),) + row[1:] for row in sections]
    at_name = names.add('.shstrtab')
    sections.append((at_name, STRTAB, 0, names.bytes(), 0, 0, 1, 0))
    parts = []
    at = 64
    headers = [bytes(64)]
    for name, sort, section_flags, contents, link, info, align, entsize in sections:
        filler = -at % 8
        parts.append(bytes(filler))
        at += filler
        size = contents if sort == NOBITS else len(contents)
        headers.append(SECTION_HEADER.pack(name, sort, section_flags, 0, at, size, link, info, align, entsize))
        if sort != NOBITS:
            parts.append(contents)
            at += size
    filler = -at % 8
    parts.append(bytes(filler))
    at += filler
    count, last = len(headers), len(headers) - 1
    headers[0] = SECTION_HEADER.pack(0, 0, 0, 0, 0, count if count >= room else 0, last if last >= room else 0, 0, 0, 0)
    header = FILE_HEADER.pack(IDENT, REL, RISCV, 1, 0, 0, at, flags, 64, 0, 0, 64, count if count < room else 0, last if last < room else XINDEX)
    return b''.join([header] + parts + headers)


def simple(defines, refers, weakly=(), mark=b'', entry_point=False):
    """An object that defines functions and refers to names: a call for each of `refers`, a word for each of `weakly`."""
    texts = Texts()
    symbols = [bytes(24)]
    code = b''
    places = []
    names = (['_start'] if entry_point else []) + list(defines)
    calls = []
    first = len(names) + 1
    for k in range(len(refers)):
        calls.append(entry(len(code), first + k, R_CALL_PLT))
        code += CALL
    code += RETURN
    for name in names:
        places.append(symbol(texts.add(name), GLOBAL, FUNC, 1, 0, len(code)))
    for name in refers:
        places.append(symbol(texts.add(name), GLOBAL, NOTYPE, UNDEF))
    words = []
    for k, name in enumerate(weakly):
        places.append(symbol(texts.add(name), WEAK, NOTYPE, UNDEF))
        words.append(entry(8 * k, first + len(refers) + k, R_64))
    return relocatable([
        ('.text', PROGBITS, ALLOC | EXECINSTR, code, 0, 0, 4, 0),
        ('.rela.text', RELA, INFO_LINK, b''.join(calls), 6, 1, 8, 24),
        ('.data', PROGBITS, ALLOC | WRITE, bytes(8 * len(weakly)), 0, 0, 8, 0),
        ('.rela.data', RELA, INFO_LINK, b''.join(words), 6, 3, 8, 24),
        ('.rodata', PROGBITS, ALLOC, mark, 0, 0, 1, 0),
        ('.symtab', SYMTAB, 0, b''.join(symbols + places), 7, 1, 8, 24),
        ('.strtab', STRTAB, 0, texts.bytes(), 0, 0, 1, 0)])


def header(name, size):
    return b'%-16s%-12d%-6d%-6d%-8s%-10d`\n' % (name, 0, 0, 0, b'644', size)


def archive(members, index=(), wide=False):
    """An archive of (name, bytes) in System V form, long names in a table. `index` is a list of (text, member's place in the list)
    for the index of symbols, left out where it is empty; `wide` gives it numbers of eight bytes, as /SYM64/."""
    table = b''
    fields = []
    for name, _ in members:
        if len(name) < 16:
            fields.append(name.encode() + b'/')
        else:
            fields.append(b'/%d' % len(table))
            table += name.encode() + b'/\n'
    width = 8 if wide else 4
    index_size = width * (1 + len(index)) + sum(len(text) + 1 for text, _ in index)
    index_size += index_size % 2
    at = 8 + (60 + index_size if index else 0) + (60 + len(table) + len(table) % 2 if table else 0)
    places = []
    for _, contents in members:
        places.append(at)
        at += 60 + len(contents) + len(contents) % 2
    parts = [ARCHIVE]
    if index:
        body = len(index).to_bytes(width, 'big') + b''.join(places[k].to_bytes(width, 'big') for _, k in index)
        body += b''.join(text.encode() + b'\0' for text, _ in index)
        parts += [header(b'/SYM64/' if wide else b'/', index_size), body.ljust(index_size, b'\0')]
    if table:
        parts += [header(b'//', len(table)), table, b'\n' * (len(table) % 2)]
    for field, (_, contents) in zip(fields, members):
        parts += [header(field, len(contents)), contents, b'\n' * (len(contents) % 2)]
    return b''.join(parts)
