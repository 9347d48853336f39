"""Links made by chance: a few objects and archives that define, refer to, and relocate nearly as they should."""
import struct

from elf.constants import *
from elf.read import defined
from elf.write import CALL, ELSEWHERE, RETURN, Texts, archive, entry, indexes, relocatable, symbol

FORMS = [    # name, type, flags: those that come often first
    ('.text', PROGBITS, ALLOC | EXECINSTR), ('.data', PROGBITS, ALLOC | WRITE), ('.rodata', PROGBITS, ALLOC), ('.bss', NOBITS, ALLOC | WRITE),
    ('.text.hot', PROGBITS, ALLOC | EXECINSTR), ('.data.rel.ro.x', PROGBITS, ALLOC | WRITE), ('.sdata.x', PROGBITS, ALLOC | WRITE),
    ('.sbss', NOBITS, ALLOC | WRITE), ('.rodata.x', PROGBITS, ALLOC), ('.srodata', PROGBITS, ALLOC), ('.init', PROGBITS, ALLOC | EXECINSTR),
    ('.fini', PROGBITS, ALLOC | EXECINSTR), ('.gcc_except_table.f', PROGBITS, ALLOC), ('own', PROGBITS, ALLOC), ('own', PROGBITS, ALLOC | WRITE),
    ('own', PROGBITS, ALLOC | EXECINSTR), ('other%', PROGBITS, ALLOC | WRITE), ('.text', PROGBITS, ALLOC), ('.data', NOBITS, ALLOC),
    ('.text.zero', NOBITS, ALLOC | EXECINSTR), ('.got', PROGBITS, ALLOC | WRITE), ('.init_array.7', PROGBITS, ALLOC | WRITE),
    ('.init_array.123', PROGBITS, ALLOC | WRITE), ('.init_array', PROGBITS, ALLOC | WRITE), ('.fini_array.00007', PROGBITS, ALLOC | WRITE),
    ('.ctors.9', PROGBITS, ALLOC | WRITE), ('.dtors', PROGBITS, ALLOC | WRITE), ('.preinit_array', PROGBITS, ALLOC | WRITE),
    ('.dataset', PROGBITS, ALLOC | WRITE), ('COMMON', NOBITS, ALLOC | WRITE), ('.eh_frame', PROGBITS, ALLOC), ('.debug_info', PROGBITS, 0),
    ('.left_out', PROGBITS, ALLOC | EXCLUDE), ('.text.', PROGBITS, ALLOC | EXECINSTR), ('.data.rel.ro.', PROGBITS, ALLOC | WRITE),
    ('', PROGBITS, ALLOC | WRITE), ('.shstrtab', PROGBITS, ALLOC), ('.bss.x', NOBITS, ALLOC | WRITE)]
RARE_FORMS = [
    ('.note.one', NOTE, ALLOC), ('.note.two', NOTE, ALLOC), ('.rodata', NOTE, ALLOC), ('.note.w', NOTE, ALLOC | WRITE),
    ('.init_array', INIT_ARRAY, ALLOC | WRITE), ('.fini_array', FINI_ARRAY, ALLOC | WRITE), ('.preinit_array', PREINIT_ARRAY, ALLOC | WRITE),
    ('.init_array', INIT_ARRAY, ALLOC), ('.data', FINI_ARRAY, ALLOC | WRITE), ('.init', PROGBITS, ALLOC | EXECINSTR),
    ('.data.held', PROGBITS, ALLOC | WRITE | RETAIN), ('.text.held', PROGBITS, ALLOC | EXECINSTR | RETAIN),
    ('.order', PROGBITS, ALLOC | LINK_ORDER), ('.order', PROGBITS, ALLOC | WRITE | LINK_ORDER), ('.order.z', NOBITS, ALLOC | WRITE | LINK_ORDER)]
# name, type, flags, entry size, alignment
MERGED_FORMS = [
    ('.rodata.str1.1', PROGBITS, ALLOC | MERGE | STRINGS, 1, 1), ('.rodata.str1.8', PROGBITS, ALLOC | MERGE | STRINGS, 1, 8),
    ('.rodata.str2.2', PROGBITS, ALLOC | MERGE | STRINGS, 2, 2), ('.rodata.str4.4', PROGBITS, ALLOC | MERGE | STRINGS, 4, 4),
    ('.rodata.cst4', PROGBITS, ALLOC | MERGE, 4, 4), ('.rodata.cst8', PROGBITS, ALLOC | MERGE, 8, 8), ('.rodata.cst16', PROGBITS, ALLOC | MERGE, 16, 4),
    ('.srodata.cst8', PROGBITS, ALLOC | MERGE, 8, 8), ('strings', PROGBITS, ALLOC | MERGE | STRINGS, 1, 1),
    ('.rodata.name.str1.1', PROGBITS, ALLOC | MERGE | STRINGS | IN_GROUP, 1, 1), ('.rodata.odd', PROGBITS, ALLOC | MERGE, 3, 2),
    ('.rodata.odd', PROGBITS, ALLOC | MERGE | STRINGS, 3, 1), ('.rodata.none', PROGBITS, ALLOC | MERGE | STRINGS, 0, 1),
    ('.data.str', PROGBITS, ALLOC | WRITE | MERGE | STRINGS, 1, 1), ('.rodata.zeros', NOBITS, ALLOC | MERGE, 4, 4)]
THREAD_FORMS = [
    ('.tdata', PROGBITS, ALLOC | WRITE | TLS), ('.tdata.x', PROGBITS, ALLOC | WRITE | TLS), ('.tbss', NOBITS, ALLOC | WRITE | TLS),
    ('.tbss.y', NOBITS, ALLOC | WRITE | TLS), ('own', PROGBITS, ALLOC | WRITE | TLS), ('own', NOBITS, ALLOC | TLS)]
SETS = ['set_a', 'set_b', 'own', 'strings', 'COMMON', 'none', '.set']
LINKERS = ('__ehdr_start __rela_iplt_start __rela_iplt_end _etext etext _edata edata __bss_start _end end _GLOBAL_OFFSET_TABLE_ __global_pointer$ '
           '__preinit_array_start __preinit_array_end __init_array_start __init_array_end __fini_array_start __fini_array_end').split()
LOWER = (R_PCREL_LO12_I, R_PCREL_LO12_S)
UPPERS = (R_GOT_HI20, R_TLS_GOT_HI20, R_TLS_GD_HI20, R_PCREL_HI20)
NEAR = (R_BRANCH, R_JAL, R_RVC_BRANCH, R_RVC_JUMP)      # types that reach only what is near
ADDS = (R_ADD8, R_ADD16, R_ADD32, R_ADD64, R_SET6, R_SET8, R_SET16, R_SET32)
TAKES_AWAY = {R_ADD8: R_SUB8, R_ADD16: R_SUB16, R_ADD32: R_SUB32, R_ADD64: R_SUB64, R_SET6: R_SUB6, R_SET8: R_SUB8, R_SET16: R_SUB16, R_SET32: R_SUB32}
OFTEN = [R_NONE, R_64, R_64, R_JAL, R_CALL, R_CALL_PLT, R_PCREL_HI20, R_PCREL_HI20, R_PCREL_LO12_I]
ANY = [R_NONE, R_32, R_64, R_JAL, R_CALL, R_CALL_PLT, R_CALL_PLT, *UPPERS, R_PCREL_HI20, *range(R_PCREL_LO12_I, R_SUB64 + 1), R_ALIGN, R_RVC_BRANCH,
       R_RVC_JUMP, R_BRANCH, *range(R_SUB6, R_32_PCREL + 1), R_PLT32]
WILD = [R_64, R_BRANCH, R_JAL, R_CALL_PLT, R_PCREL_HI20, R_PCREL_LO12_I, 41, R_ALIGN, R_RELAX, 58]     # two of them no linker has
BODIES = [bytes.fromhex(body) for body in ('67800000', '73001000', '97000000e780000067800000', '170500001305050067800000',
                                           '97000000e780000097000000e7800000', '17030000670003000100', '1700000067000000')]

# A CIE, and where a relocation stands in it
CIES = [(bytes.fromhex('1000000000000000017a5200017c01011b0c0200'), None), (bytes.fromhex('1000000000000000017a5200017801011b0c0200'), None),
        (bytes.fromhex('1400000000000000017a504c5200017801079b1b00000000'), 20), (bytes.fromhex('0c00000000000000017a000001780100'), None)]


def chance_records(chance, wild):
    """Unwind records, and the places of relocations in them: (offset, width, whether it is that of the function)."""
    contents, places, cies = b'', [], []
    for _ in range(chance.choice([0, 1, 2, 2, 3, 5, 9])):
        at = len(contents)
        if not cies or chance.random() < 0.3:
            cie, place = chance.choice(CIES)
            cies.append(at)
            contents += cie
            places += [(at + place, 4, False)] if place else []
        else:
            rest = chance.choice([b'', bytes(4), bytes(4), bytes(5), b'\x04\0\0\0\0\x0e\x10\0', bytes(12)])
            numbers = (12 + len(rest), at + 4 - chance.choice(cies), 0, chance.choice([2, 4, 8, 100]))
            contents += b''.join(number.to_bytes(4, 'little') for number in numbers) + rest
            places += [(at + 8, 4, True)] if chance.random() < 0.97 else []
            places += [(at + 12, 4, False)] if chance.random() < 0.2 else []
            places += [(at + 16 + chance.choice([0, 0, 1]), chance.choice([4, 4, 8]), False)] if len(rest) > 8 and chance.random() < 0.8 else []
            places += [(at + 16, 4, False)] if len(rest) in (4, 5) and chance.random() < 0.5 else []
    contents += bytes(4) if chance.random() < 0.5 else b''
    if chance.random() < 3 * wild:
        way, at = chance.randrange(4), chance.randrange(len(contents) + 1)
        contents = [contents[:at], contents[:at] + bytes(4) + contents[at:], contents + chance.randbytes(4), contents[:at] + chance.randbytes(1) + contents[at + 1:]][way]
    return contents, places


def chance_values(chance, places, code, symbols, wild):
    """Relocations at places of unwind records, where these symbols stand in code."""
    entries = []
    for at, width, is_function in places:
        index = chance.choice(code) if code and (is_function or chance.random() < 0.5) else chance.randrange(symbols + 1)
        if is_function or width == 4 and chance.random() < 0.7:
            entries.append(entry(at, index, R_32_PCREL, chance.choice([0, 0, 0, 0, 4, -4, 64])))
        elif width == 4 and chance.random() < 0.2:
            entries.append(entry(at, index, chance.choice([R_32, R_PLT32]), 0))
        else:
            kinds = chance.choice([(R_ADD32, R_SUB32), (R_SET8, R_SUB8), (R_SET6, R_SUB6), (R_ADD16, R_SUB16)] if width == 4 else [(R_64,), (R_ADD64, R_SUB64)])
            entries += [entry(at, k, kind, 0) for k, kind in zip((index, chance.choice(code or [0])), kinds)]
        if chance.random() < 0.05:
            entries.append(entry(at, 0, R_RELAX, 0))
    if chance.random() < wild:
        entries.append(entry(chance.randrange(100), chance.randrange(symbols + 1), chance.choice(WILD + ANY), 0))
    return entries


def chance_pieces(chance, flags, width):
    """Bytes of a section that is merged, most often: few different pieces, so that many are equal."""
    if not flags & STRINGS:
        count = chance.randrange(6)
        return b''.join(chance.choice([0, 1, 2, 2 ** 31]).to_bytes(max(width, 4), 'little')[:width] for _ in range(count)) + bytes(chance.random() < 0.05)
    width = width or 1
    units = [chance.choice([0, 0, 1, 0x61, 0x62, 256 ** width - 256 if width > 1 else 0x63]) for _ in range(chance.randrange(14))]
    return b''.join(unit.to_bytes(width, 'little') for unit in units + [0] * (chance.random() < 0.9))


def chance_object(chance, names, wild, entry_point):
    """An object. `wild` is the chance of what is a defect, or is rare."""
    rows, relocated = [], []
    recorded = {}                               # the places of relocations in unwind records, by section
    symbols = []                                # (name, binding, type, section, value, size)
    forms = [FORMS[0]] if entry_point else []
    if chance.random() < 0.15:                  # output sections in which members stand by their number
        forms += [(chance.choice(['.init_array', '.fini_array', '.init_array.65536', '.init_array.100000'] +
                                 ['.init_array.%d' % chance.randrange(20), '.fini_array.%05d' % chance.randrange(20)]),
                   chance.choice([PROGBITS, INIT_ARRAY, FINI_ARRAY]), ALLOC | WRITE) for _ in range(chance.randrange(5))]
    else:
        forms += [FORMS[min(int(chance.expovariate(0.1)), len(FORMS) - 1)] for _ in range(chance.randrange(5))]
    forms += [chance.choice(RARE_FORMS) for _ in range(chance.choice([0, 0, 0, 1, 2]))]
    forms += [chance.choice(THREAD_FORMS) for _ in range(chance.choice([0, 0, 0, 1, 2]))]
    forms += [('.eh_frame', PROGBITS, ALLOC)] * chance.choice([0, 0, 0, 1, 1, 2])
    forms += [(chance.choice(SETS[:3]), PROGBITS, chance.choice([ALLOC, ALLOC | WRITE])) for _ in range(chance.choice([0, 0, 0, 1]))]
    merged = [chance.choice(MERGED_FORMS) for _ in range(chance.choice([0, 0, 1, 2]))]
    bodies = chance.choice([0, 0, 0, 1, 3])
    for form_name, sort, flags, entsize, align in merged:
        contents = chance_pieces(chance, flags, entsize)
        rows.append([form_name, sort, flags, len(contents) if sort == NOBITS else contents, 0, 0, chance.choice([align, align, align, 1]), entsize])
    for _ in range(bodies):
        rows.append([chance.choice(['.text.f', '.text.g', '.text.h', 'code', '.fini']), PROGBITS, ALLOC | EXECINSTR, chance.choice(BODIES), 0, 0, 4, 0])
    if entry_point:                             # the code that begins the program is the first section
        rows.insert(0, ['.text', PROGBITS, ALLOC | EXECINSTR, chance.choice(BODIES), 0, 0, 4, 0])
    for form_name, sort, flags in forms:
        size = chance.choice([0, 4, 8, 12, 16, 24, 40, 64, 100, 2 * chance.randrange(200), chance.randrange(5000)])
        align = chance.choice([0, 1, 1, 2, 4, 4, 8, 16, 64, 4096])
        contents = size if sort == NOBITS else chance.randbytes(size)
        if form_name == '.eh_frame' and chance.random() > wild / 4:
            contents, recorded[len(rows) + 1] = chance_records(chance, wild)
        link = chance.randrange(len(forms) + 1) if flags & LINK_ORDER else 0
        rows.append([form_name, sort, flags, contents, link, 0, align, chance.choice([0, 0, 1, 8])])
    sections = list(range(1, len(rows) + 1))

    def size_of(i):
        contents = rows[i - 1][3]
        return contents if isinstance(contents, int) else len(contents)

    def within(size):
        return 2 * chance.randrange(size // 2 + 1)

    # local symbols: of sections, labels, absolute ones; then the others
    for i in sections:
        symbols.append(('', LOCAL, 3, i, 0, 0))
        for _ in range(chance.randrange(3)):
            symbols.append(('local', LOCAL, chance.choice([0, 1, 2]), i, within(size_of(i)), 0))
    if chance.random() < 0.2:
        symbols.append(('number', LOCAL, 0, ABS, chance.choice([0, 8, 0x11000, 2 ** 40]), 0))
    locals_ = len(symbols) + 1
    if entry_point:
        symbols.append(('_start', GLOBAL, 2, 1, within(size_of(1)), 0))
    own = chance.sample(names, min(len(names), chance.randrange(5)))
    folding = [i for i in sections if rows[i - 1][3] in BODIES] or sections
    for name in own:
        way = chance.randrange(12)
        binding = chance.choice([GLOBAL, GLOBAL, WEAK, WEAK, UNIQUE])
        if way < 6 and sections:
            i = chance.choice(chance.choice([sections, folding]))
            symbols.append((name, binding, chance.choice([0, 1, 2]), i, within(size_of(i)), chance.randrange(16)))
        elif way < 9:
            symbols.append((name, chance.choice([GLOBAL, GLOBAL, WEAK]), chance.choice([1, 5]), COMMON,
                            chance.choice([0, 1, 2, 4, 8, 32, 512]), chance.randrange(300)))
        elif way == 9:
            symbols.append((name, binding, 0, ABS, chance.choice([0, 4, 0x12345678, 2 ** 63]), 0))
        else:
            symbols.append((name, binding, chance.choice([0, 2]), UNDEF, 0, 0))
    for name in chance.sample(LINKERS, chance.choice([0, 0, 1, 3])) + [chance.choice(['__start_', '__stop_']) + chance.choice(SETS)] * (chance.random() < 0.3):
        if chance.random() < 0.1 and sections:
            symbols.append((name, chance.choice([GLOBAL, WEAK]), 0, 1, 0, 0))
        elif chance.random() < wild or not name.endswith(('none', '.set', 'set_a', 'set_b', 'own', 'strings', 'COMMON')):
            symbols.append((name, chance.choice([GLOBAL, GLOBAL, WEAK]), 0, UNDEF, 0, 0))
        else:
            symbols.append((name, WEAK, 0, UNDEF, 0, 0))
    for name in chance.sample(names, min(len(names), chance.randrange(4))):
        if name not in own:
            symbols.append((name, chance.choice([GLOBAL, GLOBAL, WEAK, WEAK]), 0, UNDEF, 0, 0))
    if chance.random() < wild:
        symbols.append((chance.choice(['nowhere', 'b%d', 'n\u00e9']), GLOBAL, 0, UNDEF, 0, 0))

    # relocations, in no order; those of one call keep apart from others, but for a wild one
    texts = Texts()
    table = [bytes(24)]
    apart = chance.random() < 0.15              # sections of symbols that stand in a table of their own
    places = [0] + [ELSEWHERE + row[3] if apart and 0 < row[3] <= len(rows) and chance.random() < 0.6 else row[3] for row in symbols]
    for place, (name, binding, sort, _, value, size) in zip(places[1:], symbols):
        table.append(symbol(texts.add(name), binding, sort, place, value, size))
    relas = []
    code = [k + 1 for k, s in enumerate(symbols) if 0 < s[3] <= len(rows) and rows[s[3] - 1][2] & EXECINSTR]
    for i in sections:
        if i in recorded:
            relas.append((i, b''.join(chance_values(chance, recorded[i], code, len(symbols), wild))))
            continue
        if rows[i - 1][1] == NOBITS or chance.random() < 0.4 or rows[i - 1][2] & MERGE and chance.random() < 0.97:
            continue
        entries, at, size = [], 0, size_of(i)
        uppers = {}                             # the places of upper parts in this section
        of_body = rows[i - 1][3] in BODIES
        while at + 1 <= size and len(entries) < 12:
            if not of_body:
                at += chance.choice([0, 0, 4, 8, 2 * chance.randrange(10), chance.randrange(4)])
            kind = chance.choice(OFTEN + ANY)
            if of_body:
                word = rows[i - 1][3][at:at + 1]
                is_call = word == b'\x97' or word == b'\x17' and at + 8 <= size and rows[i - 1][3][at + 4:at + 5] == b'\x67'
                kind = R_CALL_PLT if is_call else R_PCREL_HI20
                if word not in (b'\x97', b'\x17'):
                    at += 4
                    continue
            index = chance.randrange(len(symbols) + 1)
            addend = chance.choice([0, 0, 0, 4, -4, 16, chance.randrange(-64, 5000)])
            if of_body:
                addend = 0
            if kind in LOWER:
                label = next((k + 1 for k, s in enumerate(symbols) if s[3] == i and s[4] in uppers and s[2] != 3), None)
                if label is None and chance.random() > wild:
                    continue
                index, addend = label or index, 0
            if kind in NEAR and chance.random() > wild:
                index = next((k + 1 for k, s in enumerate(symbols) if s[3] == i), 0)
                if index == 0 or size > 2000 and kind == R_RVC_JUMP or size > 4000 or size > 200 and kind == R_RVC_BRANCH or at % 2:
                    at += 1
                    continue
                addend &= -2
                if kind in (R_RVC_BRANCH, R_RVC_JUMP):
                    addend = 0
            if kind == R_ALIGN:
                addend = chance.choice([2, 2, 2, 6]) if chance.random() > wild else chance.randrange(-2, 9)
                index = 0
                if at % 2 and chance.random() > wild:
                    continue
            if kind in UPPERS and symbols:
                # where a label stands, so that a lower part finds it
                standing = [s[4] for s in symbols if s[3] == i and s[2] != 3 and s[4] >= at and s[4] + 4 <= size]
                if standing:
                    at = standing[0]
                uppers[at] = True
            width = addend if kind == R_ALIGN else WIDTHS[kind]
            if index and symbols[index - 1][0] == 'number' and width and kind not in (R_64, R_ADD64, R_SUB64, *LOWER) and chance.random() > wild:
                continue
            if at + width > size:
                break
            entries.append(entry(at, index, kind, addend))
            if kind in (R_CALL, R_CALL_PLT) and chance.random() < 0.8 or chance.random() < 0.02:
                entries.append(entry(at, 0, R_RELAX, 0))
            if kind in ADDS and chance.random() < 0.7:     # what is added and what is taken away
                entries.append(entry(at, chance.randrange(len(symbols) + 1), TAKES_AWAY[kind], 0))
            if kind == R_64 and chance.random() < 0.15:    # a second one at this place: the later in the table counts
                entries.append(entry(at, chance.randrange(len(symbols) + 1), R_64, chance.randrange(100)))
            at += max(width, 0)
        if chance.random() < wild and size > 8:
            entries.append(entry(chance.randrange(size), chance.randrange(len(symbols) + 2), chance.choice(WILD), chance.randrange(-4, 4)))
        if chance.random() < 0.5:
            chance.shuffle(entries)
        for start in range(size) if symbols and not of_body else ():   # pairs at numbers that the bytes happen to have, mostly of distances that fit
            contents = rows[i - 1][3][start:start + 10]
            if chance.random() < 0.02 and any(byte < 128 for byte in contents):
                later, earlier = sorted((chance.randrange(len(symbols)) for _ in range(2)), key=lambda k: symbols[k][4], reverse=True)
                if symbols[later][3] != symbols[earlier][3] and chance.random() > wild:
                    earlier = later
                first, second = entry(start, later + 1, R_SET_ULEB128, chance.randrange(100)), entry(start, earlier + 1, R_SUB_ULEB128, 0)
                entries += [second, first] if chance.random() < wild else [first, second]
        relas.append((i, b''.join(entries)))
    groups = chance_groups(chance, len(rows), [i for i, _ in relas], len(table), wild)
    for row in {k for members in groups for k in members[2] if 0 < k <= len(rows)}:
        rows[row - 1][2] |= IN_GROUP
    at_symtab = len(rows) + len(relas) + len(groups) + 1
    for i, entries in relas:
        rows.append(['.rela' + rows[i - 1][0], RELA, INFO_LINK, entries, at_symtab, i, 8, 24])
    for flag, signature, members in groups:
        words = b''.join(k.to_bytes(4, 'little') for k in [flag] + members)
        rows.append(['.group', GROUP, 0, words, at_symtab, signature, 4, 4])
    rows.append(['.symtab', SYMTAB, 0, b''.join(table), at_symtab + 1, locals_, 8, 24])
    rows.append(['.strtab', STRTAB, 0, texts.bytes(), 0, 0, 1, 0])
    rows += chance_indexes(chance, places, at_symtab, wild) if apart else []
    if chance.random() < wild:
        row = chance.choice(rows)
        row[chance.choice([2, 6])] ^= chance.choice([1, 2, 4, 0x10, 0x80, 0x200, 0x400, 0x800, 2 ** 21])
    # how many sections there are, and which has their names, may stand in section 0, and the one without the other
    room = chance.choice([RESERVED] * 6 + [0, len(rows) + 2])
    return relocatable([tuple(row) for row in rows], flags=chance.choice([4, 5, 5, 21]) if chance.random() > wild / 4 else 1, room=room)


def chance_indexes(chance, places, at_symtab, wild):
    """The table of section indexes beside the symbol table of this number, as a list of sections: none, or two, where it is wild."""
    row = list(indexes(places, at_symtab))
    if chance.random() < wild:                  # a word that names nothing, or would be ABS in a field
        at = 4 * chance.randrange(len(places))
        row[3] = row[3][:at] + chance.choice([0, at_symtab + 9, ABS, XINDEX, 2 ** 16 + 1, 2 ** 32 - 1]).to_bytes(4, 'little') + row[3][at + 4:]
    if chance.random() < wild / 2:
        row[3] = chance.choice([row[3][:-4], row[3] + bytes(4), row[3][:-1], b''])
    if chance.random() < wild / 2:
        row[chance.choice([4, 7])] = chance.choice([0, 8, at_symtab + 1, at_symtab + 9])
    return [row] * (chance.choice([0, 2]) if chance.random() < wild / 2 else 1)


def chance_groups(chance, own, relocated, symbols, wild):
    """Groups of an object: (flag word, symbol of the signature, members). It has `own` sections of its own, and after them one of
    relocations for each of `relocated`; a group most often has both."""
    groups, free = [], list(range(1, own + 1))
    chance.shuffle(free)
    for _ in range(chance.choice([0, 0, 1, 1, 2, 3])):
        members = []
        for _ in range(chance.randrange(4)):
            if free:
                i = free.pop()
                members.append(i)
                if i in relocated and chance.random() < 0.8:
                    members.append(own + 1 + relocated.index(i))
        if chance.random() < wild:
            members.append(chance.choice([0, 1, own, own + len(relocated) + 1, 60000, 2 ** 32 - 1]))
        flag = 2 if chance.random() < wild / 2 else chance.choice([0, 1, 1, 1])
        groups.append((flag, chance.randrange(symbols + (chance.random() < wild / 2)), members))
    return groups


def offered(contents):
    """The names that an object offers, none of what is none or can't be read."""
    try:
        return defined(contents)
    except (LookupError, ValueError, struct.error):
        return []


def chance_link(chance):
    """(words, inputs): the options and the files of a link."""
    wild = chance.choice([0, 0, 0.02, 0.1])
    names = ['n%d' % n for n in range(chance.randrange(1, 40))]
    inputs = []
    count = chance.randrange(1, 7)
    first = chance.randrange(count)
    for k in range(count):
        if chance.random() < 0.3:
            members = [('m%d%s.o' % (m, chance.choice(['', '_of_a_long_name'])), chance_object(chance, names, wild, False))
                       for m in range(chance.randrange(5))]
            if chance.random() < 0.2:
                members.insert(chance.randrange(len(members) + 1), ('text', b'no object'))
            inputs.append(('lib%d.a' % k, archive(members)))
            if k == first:
                first += 1
        else:
            inputs.append(('o%d.o' % k, chance_object(chance, names, wild, k == first and chance.random() > wild / 4)))
    if first == count:
        inputs.append(('last.o', chance_object(chance, names, wild, True)))
    words = ['--threads', str(chance.choice([1, 2, 3, 4, 64]))]
    if chance.random() < 0.2:
        words += ['-e', chance.choice(names + LINKERS[:1] + ['_end', '__start_own'])]
    if chance.random() < 0.4:
        words.append('--gc-sections')
    if chance.random() < 0.4:
        words += ['--icf', chance.choice(['all', 'all', 'safe', 'safe', 'none'])]
    for option in ('--undefined', '--keep-unique'):
        if chance.random() < 0.25:
            words += [option, ','.join(chance.choices(names + LINKERS[:2] + ['_start', 'local', 'number', 'nowhere'], k=chance.randrange(1, 5)))]
    if chance.random() < 0.3:
        words.append('--no-relax')
    known = sorted({name for _, contents in inputs for name in offered(contents) if name.isidentifier()})
    if chance.random() < 0.4:
        words += ['--why-live', chance.choice(known * 4 + names + LINKERS[:1])]
    if chance.random() < 0.4:
        words += ['--why-apart', ','.join(chance.choices(known * 8 + names, k=2))]
    return words, inputs


def functions(chance, own, count, calls):
    """An object of functions f<k>, each in a section of its own, with calls of others: by turns as many as `calls` has."""
    texts, rows, entries, groups = Texts(), [], [], []
    kinds = len(calls)
    called = {k: [chance.choice([(k + 1) % count, (k + kinds) % count, chance.randrange(count)]) for _ in range(calls[k % kinds])] for k in own}
    others = sorted({c for calls in called.values() for c in calls} - set(own))
    symbols = [bytes(24)] + [symbol(texts.add('f%d' % k), GLOBAL, 2, i + 1) for i, k in enumerate(own)]
    symbols += [symbol(texts.add('f%d' % k), GLOBAL, 0, UNDEF) for k in others]
    symbols += [symbol(texts.add('_start'), GLOBAL, 2, 1)] * (own[0] == 0)
    number = {k: i + 1 for i, k in enumerate(own + others)}
    for k in own:
        body = CALL * len(called[k]) + (RETURN if chance.random() < 0.9 else RETURN[:2] * 2)
        rows.append(['.text.f', PROGBITS, ALLOC | EXECINSTR, body, 0, 0, 4, 0])
        entries.append(b''.join(entry(len(CALL) * n, number[c], R_CALL_PLT, 0) for n, c in enumerate(called[k])))
    free = list(range(1, len(own) + 1))
    chance.shuffle(free)
    for _ in range(chance.choice([0, 0, 1, 2])):
        members = [free.pop() for _ in range(min(len(free), chance.randrange(5)))]
        groups.append((chance.choice([0, 1]), members[0] if members else 1, members))
    at_symtab = len(rows) + sum(map(bool, entries)) + len(groups) + 1
    rows += [['.rela.text.f', RELA, INFO_LINK, table, at_symtab, i + 1, 8, 24] for i, table in enumerate(entries) if table]
    rows += [['.group', GROUP, 0, b''.join(k.to_bytes(4, 'little') for k in [flag] + members), at_symtab, signature, 4, 4]
             for flag, signature, members in groups]
    rows.append(['.symtab', SYMTAB, 0, b''.join(symbols), at_symtab + 1, 1, 8, 24])
    rows.append(['.strtab', STRTAB, 0, texts.bytes(), 0, 0, 1, 0])
    return relocatable([tuple(row) for row in rows])


def chance_chains(chance):
    """(words, inputs): functions of few kinds that call one another, some of them held together by groups, and of which it is asked why."""
    count, kinds, files = chance.randrange(2, 40), chance.randrange(1, 5), chance.randrange(1, 4)
    calls = [chance.choice([1, 1, 2])] + [chance.choice([0, 1, 1, 2]) for _ in range(kinds - 1)]
    inputs = [('o%d.o' % n, functions(chance, list(range(n, count, files)), count, calls)) for n in range(min(files, count))]
    words = ['--threads', str(chance.choice([1, 3])), '--why-live', 'f%d' % chance.randrange(count)]
    first = chance.randrange(count)
    words += ['--why-apart', 'f%d,f%d' % (first, chance.choice([(first + kinds) % count, chance.randrange(count)]))]
    if chance.random() < 0.4:
        words.append('--gc-sections')
    if chance.random() < 0.6:
        words += ['--icf', chance.choice(['all', 'safe'])]
    if chance.random() < 0.3:
        words += ['--keep-unique', 'f%d' % chance.randrange(count)]
    return words, inputs
