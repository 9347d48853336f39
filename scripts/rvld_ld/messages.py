"""What is told of a link: where it ended badly, one or two sentences after rvld's line, and the cure; where it ended well, what was asked for."""
import os
from types import SimpleNamespace

from . import equal, objects
from .objects import FAULTS, Object
from .words import Refused, shown, table_of

TEXTS = {keys.split(' ')[0] + other: text.replace('|', '\n') for keys, text in table_of('sentences.txt') for other in keys.split(' ')[1:] or ['']}
KINDS = ['of kind %d' % i if name == '-' else 'R_RISCV_' + name for i, name in enumerate(TEXTS['kinds'].split())]
MOST, FILE_AT = 2**31 - 2**20, {'input': 3, 'folded': 2, 'dropped': 1, 'discarded': 1}    # bytes of an image; which word of a line of the map is a file

def called(table, number, other):
    """What a table among the sentences calls a number."""
    return dict(row.split(' ', 1) for row in TEXTS[table].split('; ')).get(str(number), other)

def defect_of(text):
    """What rvld's line says, where it is one of a defect."""
    from urllib.parse import unquote_to_bytes
    words = text.rstrip('\n').split(' ')
    if len(words) != 8 or words[0] != 'rvld:' or words[1][:1] != 'F':
        return None
    file, section, place, name, other = (word.partition('=')[2] for word in words[3:])
    return SimpleNamespace(code=words[1], file=file, index=int(section), at=int(place), raw=unquote_to_bytes(name), other=other)

def demangled(name):
    """The name of a function or an object as C++ has it, where a c++filt is at hand."""
    name = name.decode('utf-8', 'backslashreplace')
    if not name.startswith('_Z') or len(name) > 9999:
        return name
    import shutil
    import subprocess
    tools = filter(shutil.which, ('c++filt', 'llvm-cxxfilt', 'riscv64-linux-gnu-c++filt', 'riscv64-unknown-elf-c++filt'))
    run = (subprocess.run([it, name], stdin=subprocess.DEVNULL, capture_output=True, encoding='utf-8', errors='replace') for it in tools)
    return next((end.stdout.strip() for end in run if end.stdout), name)

class Place:
    """A place in a section of an object, or the definition of a name, as `f() of a.c, in a.o:(.text.f)`: its function or object, and its source file."""

    def __init__(self, inputs, file, section=0, place=0, name=None):
        self.text, self.kind, self.own = file, 0, False
        for data in inputs.data(file):
            try:
                return self.look(Object(data), section, place, name)
            except FAULTS:
                continue

    def look(self, code, section, place, name):
        """Finds it in the object."""
        symbols, inside, own, source = code.symbols(), '', '', ''    # LOCAL symbols stand after the name of their source
        if name is not None:
            section, place = next((it.section, it.value) for it in symbols if it.name == name and it.defines)
        else:
            _, self.kind, named, _ = next(it for table, entries in code.relocations() if table.info == section for it in entries if it[0] == place)
            self.own = bool(symbols[named].section)
        if section < len(code.sections):
            self.text += ':(%s)' % code.section_name(section).decode('utf-8', 'replace')
        for symbol in symbols:
            if symbol.kind == objects.FILE:
                source = symbol.name.decode('utf-8', 'replace')
                own = own or source
            elif symbol.section == section and symbol.kind in (objects.FUNC, objects.OBJECT) and 0 <= place - symbol.value < max(symbol.size, 1):
                inside, own = demangled(symbol.name), own if symbol.binding else source
        self.text = ', in '.join(filter(None, [' of '.join(filter(None, [inside, own])), self.text]))

class Explained:
    """The words for the sentences of a defect, and its lines."""

    def __init__(self, defect, inputs):
        self.inputs, self.code, self.file, self.index, self.at, self.raw = inputs, defect.code, defect.file, defect.index, defect.at, defect.raw
        self.data = (inputs.data(defect.file) or [memoryview(b'')])[0]
        self.name, self.number = demangled(defect.raw) or 'a local place', int(defect.other) if defect.other.isdigit() else 0
        self.signed, self.cure = self.number - (self.number >> 63 << 64), TEXTS.get('cure%d' % self.number, '')
        self.other_kind = KINDS[self.number] if self.number < len(KINDS) else 'of kind %d' % self.number
        self.float_abi, self.first_float_abi = (called('floats', it, 'unknown') for it in (self.at, self.number))
        self.thin = inputs.faults.get(defect.file, TEXTS['make_archive'])
        case = ''
        if self.code in ('F01', 'F02'):
            case = self.of_file()
        elif self.code in ('F04', 'F05', 'F09', 'F17'):
            case = self.of_object(Object(self.data))
        elif self.code == 'F20':
            self.definition, self.other_definition = (Place(inputs, file, name=self.raw) for file in (self.file, defect.other))
        elif self.code in ('F22', 'F24', 'F25', 'F26', 'F27'):
            self.place = Place(inputs, self.file, self.index, self.at)
            self.kind = KINDS[self.place.kind]
        text = TEXTS.get(self.code + case) or TEXTS.get(self.code, TEXTS['other'])
        self.lines = [line.format(self, **TEXTS) for line in text.split('\n')] + [hint for hint in [next(self.hints(), '')] if hint]

    def of_file(self):
        """What is there in the place of an object: how the file starts (F01), or the field of the header that is another's (F02)."""
        head = bytes(self.data[:256])
        kind, machine = (int.from_bytes(head[at:at + 2], 'little') for at in (16, 18))
        self.type, self.machine = called('types', kind, 'no object'), called('machines', machine, 'the machine %d' % machine)
        if self.code == 'F02':
            return str(self.at)
        is_text = all(byte in b'\t\n\r' or 32 <= byte < 127 for byte in head)
        return 'empty' if not head else 'bitcode' if head[:4] == objects.BITCODE else 'text' if is_text else ''

    def of_object(self, code):
        """The section that is refused (F04, F05), or the symbol (F09, F17)."""
        if self.code in ('F04', 'F05'):
            self.section, both = os.fsdecode(code.section_name(self.index)), objects.WRITE | objects.EXECINSTR
            return 'both' if code.sections[self.index].flags & both == both else ''
        symbol = code.symbols()[(self.at - code.symbol_table.offset) // 24]
        self.symbol, self.symbol_at = demangled(symbol.name), symbol.value - (symbol.value >> 63 << 64)
        if symbol.section >= len(code.sections) or symbol.value <= code.sections[symbol.section].size:
            return ''
        self.section, self.symbol_cure = os.fsdecode(code.section_name(symbol.section)), TEXTS['anchor' if symbol.name[:8] == b'.LANCHOR' else 'label']
        return 'past'

    def hints(self):
        """What may be behind a name that is not defined (F21, F22), the likeliest first."""
        if self.code not in ('F21', 'F22'):
            return
        causes = {'own_group': self.code == 'F22' and self.place.own, 'tls': self.raw == b'__tls_get_addr',
                  'key_function': self.name.startswith(('vtable for ', 'typeinfo for '))}
        yield from (TEXTS[cause] for cause, is_so in causes.items() if is_so)
        files = [(shown(file.name), equal.mapped(file.path)) for file in self.inputs.files]
        for file, data in files:
            if objects.has(data, b'__gnu_lto_slim') or any(data[at:at + 4] == objects.BITCODE for _, at, _ in objects.contents(data)):
                yield '>>> %s %s' % (file, TEXTS['only_lto'])
        base, in_cplusplus = self.name.partition('(')[0].encode(), b'_Z%d%s' % (len(self.raw), self.raw)
        for file, name in ((file, it.name) for file, data in files if data[:4] == objects.ELF for it in Object(data).symbols() if it.defines):
            if name != self.raw and (name == base or name.startswith(in_cplusplus)):
                yield '>>> did you mean: %s%s, in %s' % ('extern "C" ' if name == base else '', demangled(name), file)

def after(inputs, said, defect):
    """What follows rvld's own lines."""
    told, name = [], said.rstrip('\n').rpartition(' ')[2]
    try:
        if defect is not None:
            told = Explained(defect, inputs).lines
        elif said.startswith('rvld: cannot read '):
            open(inputs.found(name)[0].path, 'rb').close()
    except OSError as fault:
        told = ['cannot open %s: %s' % (name, fault.strerror)]
    except FAULTS + (KeyError,):
        told = [] if defect is None else [TEXTS['other'].format(defect, **TEXTS)]
    lines = (''.join(c if c.isprintable() else '?' for c in line) for line in told)
    return ''.join('%s%s\n' % ('' if line.startswith('>>>') else 'rvld-ld: ', line) for line in lines)

def files(inputs, lines):
    """The files that have a part in the link, in the order of the command: objects, and the members that were taken."""
    found = dict.fromkeys(line[FILE_AT[line[0]]] for line in lines if line[0] in FILE_AT)
    for file in inputs.files:
        name = shown(file.name)
        yield from (it for it in found if it.startswith(name + '(')) if equal.mapped(file.path)[:8] == objects.ARCHIVE else [name]

def traced(link, inputs, lines):
    """Who defines the names of -y, and who refers to them, in the words of ld.lld."""
    names, what = {os.fsencode(name): name for name in link.lists['trace-symbol']}, {objects.UNDEF: 'reference to', objects.COMMON: 'common definition of'}
    yield from ('--undefined=%s: reference to %s' % (name, name) for name in link.lists['undefined'] if name in names.values())
    for file in files(inputs, lines):
        for symbol in (it for data in inputs.data(file)[:1] if data[:4] == objects.ELF for it in Object(data).symbols()):
            if symbol.binding and symbol.name in names:
                yield '%s: %s %s' % (file, what.get(symbol.section, 'definition of'), names[symbol.name])

def report(link, inputs, say):
    """Writes what was asked for, to the standard output, and the map to its file."""
    with open(inputs.map, 'rb') as file:
        text, path = inputs.original(os.fsdecode(file.read())), link.values.get('Map')
    try:
        if path is not None and os.path.isfile(path) and not os.path.islink(path):    # as rvld does it, a new file takes the name
            os.unlink(path)
        if path is not None:
            with open(path, 'wb') as file:
                file.write(os.fsencode(text))
    except OSError as fault:
        raise Refused('%s: the map cannot be written: %s' % (shown(path), fault.strerror), 3)
    lines, told = [line.split(' ') for line in text.split('\n')], []
    if 'trace' in link.on:
        told += files(inputs, lines)
    if link.lists['trace-symbol']:
        told += dict.fromkeys(traced(link, inputs, lines))
    if 'print-gc-sections' in link.on:
        told += ['removing unused section %s:(%s)' % (line[1], line[3]) for line in lines if line[0] == 'dropped']
    if 'print-memory-usage' in link.on:    # in the form of GNU ld; there is one region
        used = max([0x10000] + [int(line[1], 16) + int(line[2], 16) for line in lines if line[0] == 'section']) - 0x10000
        told += ['Memory region         Used Size  Region Size  %age Used', '%16s: %10d B %10d B %10.2f%%' % ('memory', used, MOST, 100 * used / MOST)]
    say(''.join(line + '\n' for line in told) + (text if 'print-map' in link.on else ''))
