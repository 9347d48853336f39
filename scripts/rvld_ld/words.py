"""The words of GNU ld that drivers hand over: what each asks for, and which are refused, with what to say. words.txt has the table of them."""
import os

def table_of(name):
    """The lines with a tab of a text that stands beside this file, parted there."""
    with open(os.path.join(os.path.dirname(__file__), name), encoding='utf-8') as text:
        return [line.rstrip('\n').split('\t') for line in text if '\t' in line]

TABLE = {key: [] for key in 'over over-value over-maybe over-z given value on off short short-value'.split()}
SOME, REFUSED = {}, {}    # options that have certain values alone, with what to say of others; those that are refused, and `z` with a word of -z
for names, rest in table_of('words.txt'):
    if names in TABLE:
        TABLE[names] += rest.split()
    elif '=' in names:
        SOME.update((word.partition('=')[0], (word.partition('=')[2], rest)) for word in names.split())
    else:
        REFUSED.update((name, rest) for name in names.split())
OFF, SHORT, SHORT_VALUE = (dict(pair.split('=') for pair in TABLE[key]) for key in ('off', 'short', 'short-value'))
KIND = {name.partition('=')[0]: key for key in 'over over-value over-maybe given value on off'.split() for name in TABLE[key]}
WARNINGS = ('warn-', 'no-warn-')    # so start words that change nothing, unless they are refused
QUESTIONS, STATIC = {'v', 'verbose', 'version', 'help'}, {'static', 'Bstatic', 'non_shared', 'dn'}
TOLD = {'print-map', 'trace', 'print-gc-sections', 'print-memory-usage'}    # of the map, by messages.report
LISTED = 'undefined', 'keep-unique'    # of rvld, with names between commas
FLAGS = {'strip-all': '-s', 'gc-sections': '--gc-sections', 'no-relax': '--no-relax'}    # of rvld

class Refused(Exception):
    """Why a command is not passed on to rvld; and the status, where it is not 2."""

def shown(word):
    """The word as rvld shows names: each byte that is no visible ASCII character, and each %, as % and two digits."""
    return ''.join(chr(b) if 0x21 <= b <= 0x7e and b != 0x25 else '%%%02X' % b for b in os.fsencode(word))

def refuse(word, why):
    raise Refused('%s: %s' % (shown(word), why))

def words_in(file):
    """The words of a response file, `@FILE`: blanks part them, quotes hold blanks, and a backslash holds the next character."""
    try:
        with open(file[1:], 'rb') as text:
            data = text.read()
    except OSError as fault:
        refuse(file, 'cannot be read: %s' % fault.strerror)
    if not any(mark in data for mark in (b'\\', b'"', b"'")):
        return data.split()
    import re
    out, word = [], []
    for found in re.finditer(rb'''(?s)(\s+)|"((?:[^"\\]+|\\.)*)"?|'((?:[^'\\]+|\\.)*)'?|((?:[^\s"'\\]+|\\.)+|\\)''', data):
        if found[1] is None:
            word.append(re.sub(rb'(?s)\\(.)', rb'\1', found[found.lastindex]))
        elif word:
            out.append(b''.join(word))
            word = []
    return out + [b''.join(word)] if word else out

def expand(words):
    """The words with those of response files in place of `@FILE`; where there is no such file the word stays, as in GNU ld."""
    out, waiting, files = [], list(reversed(words)), 0
    while waiting:
        word = waiting.pop()
        if '\0' in word:
            refuse(word, 'a zero byte, which no name has')
        if word.startswith('@') and os.path.exists(word[1:]):
            files += 1
            if files > 1000:
                refuse(word, 'too many response files; one may name itself')
            waiting += map(os.fsdecode, reversed(words_in(word)))
        else:
            out.append(word)
    return out

def not_shared(word, name):
    """Refuses a file with the name of a shared library: `.so`, or `.so.` and a version."""
    _, dot, version = os.path.basename(name).rpartition('.so')
    if dot and (not version or version[0] == '.' and all(part.isdigit() for part in version[1:].split('.'))):
        refuse(word, 'a shared library; rvld links static programs')

def number_of(text):
    """The number that an expression is, modulo 2^64: decimal, 0x.., or 0.. octal, with K or M after it, and a sign before; else None."""
    import re
    found = re.fullmatch(r'(-?)(0x[0-9a-f]{1,28}|0[0-7]{0,28}|[1-9][0-9]{0,28})([km]?)', text.lower(), re.A)
    if found:
        sign, digits, scale = found.groups()
        return int(sign + digits, 8 if digits[0] == '0' and 'x' not in digits else 0) * {'': 1, 'k': 1024, 'm': 1048576}[scale] % 2**64

def named(word):
    """The long name of an option, and the value that stands in the word itself."""
    name, is_, value = word.removeprefix('-').removeprefix('-').partition('=')
    # with one dash, `-oNAME` is the short option whatever NAME is
    is_long = word[1] == '-' or len(name) > 1 and name[0] != 'o' and (name in KIND or name in REFUSED or name.startswith(WARNINGS))
    if not is_long and word[1] in SHORT_VALUE:
        return SHORT_VALUE[word[1]], word[2:] or None
    return name if is_long else SHORT.get(name, name), value if is_ else None

class Link:
    """What a driver's command asks for."""

    def __init__(self, words):
        self.inputs, self.on = [], {}                          # (word, is a library), in the order of the command; what is switched on, and by which word
        self.values, self.defined = {}, {}                     # of rvld's options, the last of each; numbers of names, by --defsym
        self.lists = {name: [] for name in TABLE['value']}     # all values of other options
        refused, waiting = [], list(reversed(words))
        while waiting:
            try:
                self.take(waiting.pop(), waiting)
            except Refused as why:
                refused.append(why)
        if refused and not self.on.keys() & {'version', 'help'}:
            raise refused[0]

    def take(self, word, waiting):
        """Takes a word, and its value from those that wait."""
        if len(word) < 2 or word[0] != '-':
            not_shared(word, word)
            return self.inputs.append((word, False))
        name, value = named(word)
        kind = KIND.get(name, 'over' if name.startswith(WARNINGS) else '')
        if value is None and kind in ('over-value', 'given', 'value'):
            if not waiting:
                refuse(word, 'its value is missing')
            value = waiting.pop()
        if kind != 'on' and name in REFUSED:
            refuse(word, REFUSED[name])
        elif kind in ('given', 'value'):
            self.valued(word, name, kind, value)
        elif name == 'build-id' and (value or '').startswith('0x'):
            refuse(word, 'rvld writes no build ID')
        elif value is not None and not kind.startswith('over-'):
            refuse(word, 'not known, or not with a value')
        elif kind == 'on':
            self.on[name] = word
        elif kind == 'off':
            self.on.pop(OFF[name], None)
        elif name == 'no-threads':
            self.values['threads'] = '1'
        elif not kind:
            refuse(word, 'not known')

    def valued(self, word, name, kind, value):
        """An option with a value."""
        if value == '' and name not in ('library-path', 'sysroot'):
            refuse(word, 'its value is missing')
        values, why = SOME.get(name, ('', ''))
        first, is_range, last = values.partition('..')
        if values and value not in (map(str, range(int(first), int(last) + 1)) if is_range else values.split(',')):
            refuse('-m' + value if name == 'm' else '--%s=%s' % (name, value), why)
        if name == 'library':
            self.inputs.append((value, True))
        elif name == 'Map' and value == '-':
            self.on['print-map'] = word
        elif kind == 'given':
            self.values['threads' if name == 'thread-count' else name] = value
        elif name == 'z':
            key, is_, number = value.partition('=')
            paged = is_ and key in ('max-page-size', 'common-page-size')
            if 'z' + key in REFUSED or paged and number_of(number) != 4096 or not paged and key + is_ not in TABLE['over-z']:
                refuse('-z' + value, REFUSED.get('z' + key, 'rvld lays segments out by pages of 4096 bytes' if paged else 'not known'))
        elif name == 'defsym':
            symbol, _, text = value.partition('=')
            if not symbol or number_of(text) is None:
                refuse('--defsym=' + value, 'rvld-ld takes NAME=NUMBER, and no other expression')
            self.defined[symbol] = number_of(text)
        elif name in LISTED and ',' in value:
            refuse('--%s=%s' % (name, value), 'rvld takes no name with a comma')
        self.lists.get(name, []).append(value)

    def library(self, name):
        """The archive of `-lNAME` or `-l:FILE`, in the first folder that has it; `=` or `$SYSROOT` at a folder's start is that of --sysroot."""
        folders, file, sysroot = [], name[1:] if name.startswith(':') else 'lib%s.a' % name, ''.join(self.lists['sysroot'][-1:])
        for word in self.lists['library-path']:
            rest = word.removeprefix('=').removeprefix('$SYSROOT')
            folders.append(word or '.' if rest == word else sysroot + rest or '/')
        not_shared('-l' + name, file)
        for path in (os.path.join(folder, file) for folder in folders):
            if os.path.isfile(path):
                return path
        shared = [folder for folder in folders if name[:1] != ':' and os.path.isfile(os.path.join(folder, 'lib%s.so' % name))]
        raise Refused('cannot find -l' + shown(name) + ''.join(
            ': %s has it as a shared library alone, and rvld links static programs; give the driver -static' % shown(it) for it in shared[:1]))

    def words(self):
        """The options for rvld, and the inputs in the order of the command; each archive once, since rvld searches each for every name."""
        if 'pie' in self.on:
            refuse(self.on['pie'], REFUSED['pie'])
        if self.lists['rpath'] and not self.on.keys() & STATIC:
            refuse('-rpath', 'rvld writes no programs that load shared libraries; give the driver -static')
        files = {}
        for number, (word, is_library) in enumerate(self.inputs):
            path = self.library(word) if is_library else word
            files.setdefault(os.path.realpath(path) if is_library or path.endswith('.a') else number, path)
        if files and 'self-input' in self.values:
            refuse('--self-input=' + self.values['self-input'], 'it stands in place of files, and here are both')
        if not files and 'self-input' not in self.values:
            raise Refused('no input files')
        if 'Map' in self.values and self.values['Map'] == self.values.get('output', 'a.out'):
            refuse(self.values['Map'], 'named for the program and for the map')
        listed = [(name, ','.join(dict.fromkeys(self.lists[name]))) for name in LISTED if self.lists[name]]
        options = ['--%s=%s' % option for option in [*self.values.items(), *listed]] + [FLAGS[name] for name in self.on if name in FLAGS]
        for word in options + list(files.values()):
            if not word.isascii() and any('\udc80' <= c <= '\udcff' for c in word):
                refuse(word, 'not UTF-8, which rvld asks of each word')
        return options, list(files.values())
