#!/usr/bin/env python3
"""Times rvld beside ld.lld, mold and GNU ld, each where it is there, on objects and archives made for it.

Usage: scripts/speed.py MODE [RVLD] [--before RVLD] [--runs 5] [--peers lld,mold,ld] [--threads 1,2,4] [--sizes N,N] [--keep DIR] [--figures DIR]

  objects    1000, 4000 and 16000 small objects that call each other in a binary tree
  symbols    one object of 100,000 symbols and 300,000 relocations, and one of twice as many
  sections   one object of 7,000 sections, one of 70,000, and one of 1,000,000
  pairs      one object with 250,000 distances as ULEB128 numbers, each of a pair of relocations, 500,000 and 1,000,000
  archive    an archive of 10,000 members of which a chain of 5,000 is live, and one of twice as many
  strings    250,000, 500,000 and 1,000,000 strings in 100 files, of which half repeat
  string     the same in one file
  names      250,000, 500,000 and 1,000,000 global symbols in 100 files, all of other names
  name       as many in one file
  groups     25,000, 50,000 and 100,000 COMDAT groups, each in two of the files, which have 1,000 groups each
  functions  500, 1,000 and 2,000 objects of 30 functions with two calls each
  links      a chain of 8,000 functions of equal bytes, and of 16,000, 32,000 and 64,000, with --icf=all
  cycles     two cycles of such functions, 1,003 and 1,005 long, and 10,003 and 10,005
  shapes     50,000 and 100,000 functions of 1,000 shapes, each calling one of another shape, with --icf=all
  unlike     30,000 and 60,000 functions of which no two have equal bytes, with --icf=all
  chain      100,000 sections each of which leads to the next, and 200,000, with --gc-sections
  star       the same, where the first section leads to all others
  layers     400 layers of 500 sections with ten addresses of the next layer each, and 800, with --gc-sections
  random     100,000 sections with three addresses of others each, and 200,000, with --gc-sections
  frames     50,000, 100,000 and 200,000 functions with an FDE each: one section of code, and one of FDEs
  owners     the same, each function in a section of code of its own
  lists      the same, and each FDE in a section `.eh_frame` of its own
  files      4,000, 8,000 and 16,000 objects of one function with an FDE
  cxx        C++ of 2,500, 5,000 and 10,000 functions that clean up and catch, in objects of 100 by G++
  units      250, 500 and 1,000 objects of 40 functions of C++ by G++, with groups, shared strings and tables; symbols kept, calls relaxed
  debug      the same with 300 KB of debug data each, stripped and not relaxed
  library    a quarter, a half and all members of a C library (Debian's musl for RISC-V); symbols kept, calls relaxed
  relaxed    1,000, 4,000 and 16,000 objects of the tree with R_RISCV_RELAX; symbols kept, calls relaxed
  data       one object with 50, 100 and 200 MB of data, with an address in each 4096 bytes
  all        all of these
  plots      all of these at four or five sizes each, with 1 and 4 workers, and with pictures in docs/figures
  draw       measures nothing: makes the pictures anew from the figures that are kept beside them
  --small    a hundredth of each size, to try the script

The linkers take turns, run by run. A row has the median time, the fastest, the median time of all processors, the greatest memory of a run, and the time for each
megabyte of input; then its ratio to rvld with as many workers, and how both grew from the size before.
mold spends a millisecond on each file that the command names, so more than 100 stand in one archive for it, under --whole-archive.
With --keep the files stay in DIR, and are taken from there where an earlier run left all of them.
With --figures (docs/figures for `plots` and `draw`) the folder gets MODE.tsv, the figures; pictures (SVG) of time and memory against size; and
README.md, the page of all of them.
RVLD is $RVLD where it is not named, else crates/rvld/out/rvld; `none` leaves it out. --before names another rvld, such as one built from an earlier commit.
The peer `lld-19` is the command `ld.lld-19`, of Debian's package of that name; it takes part where it is asked for.
"""
import argparse
import hashlib
import math
import multiprocessing
import multiprocessing.pool
import os
import random
import resource
import shutil
import statistics
import subprocess
import sys
import tempfile
import threading
import time
from xml.sax.saxutils import escape

sys.path.insert(0, os.path.dirname(os.path.realpath(__file__)))
from elf.constants import (ALLOC, COMDAT, EXECINSTR, FUNC, GLOBAL, GROUP, IN_GROUP, INFO_LINK, LOCAL, MERGE, NOTYPE, PROGBITS, R_64, R_CALL_PLT, R_RELAX, R_SET_ULEB128, R_SUB_ULEB128,
                           R_32_PCREL, R_ADD32, R_SUB32, RELA, RESERVED, SECTION, STRINGS, STRTAB, SYMTAB, UNDEF, WEAK, WRITE)
from elf.read import File, members
from elf.write import CALL, NOP, RETURN, Texts, archive, entry, indexes, placed, relocatable, simple, symbol


def tree_object(k, count, hints=False):
    """Object k of a tree: f calls its own g and the f of two children. With `hints` the calls may be relaxed."""
    children = [child for child in (2 * k + 1, 2 * k + 2) if child < count]
    text = CALL * (1 + len(children)) + RETURN
    own = (['_start'] if k == 0 else []) + ['f%d' % k]
    names = Texts()
    symbols = [bytes(24), symbol(0, LOCAL, SECTION, 5)]
    for name in own:
        symbols.append(symbol(names.add(name), GLOBAL, FUNC, 1, 0, len(text)))
    at_g = len(symbols)
    symbols.append(symbol(names.add('g%d' % k), GLOBAL, FUNC, 3, 0, 8))
    symbols.append(symbol(names.add('d%d' % k), GLOBAL, FUNC, 4, 0, 4))
    callees = [at_g]
    for child in children:
        callees.append(len(symbols))
        symbols.append(symbol(names.add('f%d' % child), GLOBAL, NOTYPE, UNDEF))
    calls = b''.join(entry(8 * i, callee, kind) for i, callee in enumerate(callees) for kind in ((R_CALL_PLT, R_RELAX) if hints else (R_CALL_PLT,)))
    return relocatable([
        ('.text.f', PROGBITS, ALLOC | EXECINSTR, text, 0, 0, 4, 0),
        ('.rela.text.f', RELA, INFO_LINK, calls, 8, 1, 8, 24),
        ('.text.g', PROGBITS, ALLOC | EXECINSTR, (0x513 + (k % 7 << 20)).to_bytes(4, 'little') + RETURN, 0, 0, 4, 0),
        ('.text.d', PROGBITS, ALLOC | EXECINSTR, RETURN, 0, 0, 4, 0),
        ('.rodata.str1.1', PROGBITS, ALLOC, b's%d\0' % (k % 11), 0, 0, 1, 0),
        ('.data', PROGBITS, ALLOC | WRITE, bytes(8), 0, 0, 8, 0),
        ('.rela.data', RELA, INFO_LINK, entry(0, 1, R_64), 8, 6, 8, 24),
        ('.symtab', SYMTAB, 0, b''.join(symbols), 9, 2, 8, 24),
        ('.strtab', STRTAB, 0, names.bytes(), 0, 0, 1, 0)])


def wide_object(count):
    """One object: `count` functions in one section, one and a half times as many calls and as many words that hold addresses."""
    names = Texts()
    symbols = [bytes(24), symbol(names.add('_start'), GLOBAL, FUNC, 1, 0, 8)]
    calls = count + count // 2
    for k in range(count):
        symbols.append(symbol(names.add('name_%d' % k), GLOBAL, FUNC, 1, 8 * k, 8))
    call_rows = b''.join(entry(8 * i, 2 + i * 7919 % count, R_CALL_PLT) for i in range(calls))
    word_rows = b''.join(entry(8 * i, 2 + i * 104729 % count, R_64, i % 64) for i in range(calls))
    return relocatable([
        ('.text', PROGBITS, ALLOC | EXECINSTR, CALL * calls + RETURN, 0, 0, 4, 0),
        ('.rela.text', RELA, INFO_LINK, call_rows, 5, 1, 8, 24),
        ('.data', PROGBITS, ALLOC | WRITE, bytes(8 * calls), 0, 0, 8, 0),
        ('.rela.data', RELA, INFO_LINK, word_rows, 5, 3, 8, 24),
        ('.symtab', SYMTAB, 0, b''.join(symbols), 6, 1, 8, 24),
        ('.strtab', STRTAB, 0, names.bytes(), 0, 0, 1, 0)])


def many_sections(count):
    """One object of `count` sections in all, or one or two less: each function has a section and a section of relocations, and calls another."""
    functions = (count - (4 if count < RESERVED else 5)) // 2
    names = Texts()
    places = [0, 1] + [placed(2 * k + 1) for k in range(functions)]
    symbols = [bytes(24), symbol(names.add('_start'), GLOBAL, FUNC, 1, 0, 12)]
    rows = []
    at_symtab = 2 * functions + 1
    for k in range(functions):
        name = '.text.function_%d' % k
        rows.append((name, PROGBITS, ALLOC | EXECINSTR, CALL + RETURN, 0, 0, 4, 0))
        rows.append(('.rela' + name, RELA, INFO_LINK, entry(0, 2 + k * 7919 % functions, R_CALL_PLT), at_symtab, 2 * k + 1, 8, 24))
        symbols.append(symbol(names.add('function_%d' % k), GLOBAL, FUNC, places[k + 2], 0, 12))
    rows.append(('.symtab', SYMTAB, 0, b''.join(symbols), at_symtab + 1, 1, 8, 24))
    rows.append(('.strtab', STRTAB, 0, names.bytes(), 0, 0, 1, 0))
    if at_symtab > RESERVED:
        rows.append(indexes(places, at_symtab))
    return relocatable(rows)


def distances(count):
    """One object: `count` numbers of three bytes in a table, each the distance from one function to a later one, and a tenth as many functions."""
    functions = max(count // 10, 2)
    names = Texts()
    symbols = [bytes(24), symbol(names.add('_start'), GLOBAL, FUNC, 1, 0, 8)]
    for k in range(functions):
        symbols.append(symbol(names.add('function_%d' % k), GLOBAL, FUNC, 1, 8 * k, 8))
    pairs = []
    for i in range(count):
        earlier = i * 7919 % functions
        later = earlier + i % min(1000, functions - earlier)
        pairs += [entry(3 * i, 2 + later, R_SET_ULEB128), entry(3 * i, 2 + earlier, R_SUB_ULEB128)]
    return relocatable([
        ('.text', PROGBITS, ALLOC | EXECINSTR, (NOP + RETURN) * functions, 0, 0, 4, 0),
        ('.rodata', PROGBITS, ALLOC, b'\x80\x80\0' * count, 0, 0, 1, 0),
        ('.rela.rodata', RELA, INFO_LINK, b''.join(pairs), 4, 2, 8, 24),
        ('.symtab', SYMTAB, 0, b''.join(symbols), 5, 1, 8, 24),
        ('.strtab', STRTAB, 0, names.bytes(), 0, 0, 1, 0)])


def chain_archive(count):
    """An archive of `count` members. Every other one is in a chain: it calls the next of the chain."""
    half = count // 2
    made = []
    index = []
    for k in range(half):
        made.append(('chain_%d.o' % k, simple(['c%d' % k], ['c%d' % (k + 1)] if k + 1 < half else [])))
        index.append(('c%d' % k, len(made) - 1))
        made.append(('member_with_a_long_name_%d.o' % k, simple(['d%d' % k], ['c0'])))
        index.append(('d%d' % k, len(made) - 1))
    return archive(made, index)


def string_object(first, strings):
    """An object of one section of strings; the first object has the entry."""
    names = Texts()
    symbols = [bytes(24)] + ([symbol(names.add('_start'), GLOBAL, FUNC, 1, 0, 4)] if first else [])
    return relocatable([
        ('.text', PROGBITS, ALLOC | EXECINSTR, RETURN, 0, 0, 4, 0),
        ('.rodata.str1.1', PROGBITS, ALLOC | MERGE | STRINGS, b''.join(strings), 0, 0, 1, 1),
        ('.symtab', SYMTAB, 0, b''.join(symbols), 4, 1, 8, 24),
        ('.strtab', STRTAB, 0, names.bytes(), 0, 0, 1, 0)])


def string_files(folder, count, files):
    """Strings of which each second one was there before, in a random order that is always the same, shared out among files."""
    order = [k % (count // 2) for k in range(count)]
    random.Random(count).shuffle(order)
    place = os.path.join(folder, 'strings-%d-%d' % (count, files))
    os.makedirs(place, exist_ok=True)
    share = count // files
    return [write(os.path.join(place, 's%d.o' % f),
                  string_object(not f, [b'the string of number %d\0' % k for k in order[f * share:(f + 1) * share]])) for f in range(files)]


def name_object(first, names_of):
    """An object of global symbols; the first object has the entry."""
    names = Texts()
    symbols = [bytes(24)] + ([symbol(names.add('_start'), GLOBAL, FUNC, 1, 0, 4)] if first else [])
    symbols += [symbol(names.add(name), GLOBAL, FUNC, 1, 0, 4) for name in names_of]
    return relocatable([
        ('.text', PROGBITS, ALLOC | EXECINSTR, RETURN, 0, 0, 4, 0),
        ('.symtab', SYMTAB, 0, b''.join(symbols), 3, 1, 8, 24),
        ('.strtab', STRTAB, 0, names.bytes(), 0, 0, 1, 0)])


def name_files(folder, count, files):
    place = os.path.join(folder, 'names-%d-%d' % (count, files))
    os.makedirs(place, exist_ok=True)
    share = max(count // files, 1)
    return [write(os.path.join(place, 'n%d.o' % f), name_object(not f, ['a_global_name_of_number_%d' % k for k in range(f * share, (f + 1) * share)])) for f in range(files)]


def group_object(first, signatures):
    """An object with a COMDAT group of one function for each signature; the first object has the entry."""
    names = Texts()
    symbols = [bytes(24)] + ([symbol(names.add('_start'), GLOBAL, FUNC, 1, 0, 4)] if first else [])
    rows = [('.text', PROGBITS, ALLOC | EXECINSTR, RETURN, 0, 0, 4, 0)]
    at_symtab = 2 * len(signatures) + 2
    for i, signature in enumerate(signatures):
        rows.append(('.group', GROUP, 0, COMDAT.to_bytes(4, 'little') + (3 + 2 * i).to_bytes(4, 'little'), at_symtab, len(symbols), 4, 4))
        rows.append(('.text.' + signature, PROGBITS, ALLOC | EXECINSTR | IN_GROUP, RETURN, 0, 0, 4, 0))
        symbols.append(symbol(names.add(signature), WEAK, FUNC, 3 + 2 * i, 0, 4))
    return relocatable(rows + [
        ('.symtab', SYMTAB, 0, b''.join(symbols), at_symtab + 1, 1, 8, 24),
        ('.strtab', STRTAB, 0, names.bytes(), 0, 0, 1, 0)])


def group_files(folder, count):
    place = os.path.join(folder, 'groups-%d' % count)
    os.makedirs(place, exist_ok=True)
    each = min(count, 1000)
    return [write(os.path.join(place, 'g%d.o' % f), group_object(not f, ['_ZN5group%dEv' % (k % count) for k in range(f * each, (f + 1) * each)])) for f in range(2 * count // each)]


def call_object(k, count):
    """30 functions, each in a section of its own, with two calls: one to the next function of the object and one to one of another object."""
    names = Texts()
    symbols = [bytes(24)]
    others = {}
    rows = []
    at_symtab = 61
    for i in range(30):
        symbols.append(symbol(names.add('f%d_%d' % (k, i)), GLOBAL, FUNC, 2 * i + 1, 0, 336))
    if not k:
        symbols.append(symbol(names.add('_start'), GLOBAL, FUNC, 1, 0, 4))
    for i in range(30):
        other = 'f%d_%d' % ((k * 31 + i * 7 + 1) % count, (i * 11 + k) % 30)
        if other not in others:
            others[other] = len(symbols)
            symbols.append(symbol(names.add(other), GLOBAL, NOTYPE, UNDEF))
        calls = b''.join(entry(offset, callee, kind) for offset, callee in ((8, 1 + (i + 1) % 30), (160, others[other])) for kind in (R_CALL_PLT, R_RELAX))
        rows.append(('.text.f%d' % i, PROGBITS, ALLOC | EXECINSTR, NOP * 2 + CALL + NOP * 36 + CALL + NOP * 41 + RETURN, 0, 0, 4, 0))
        rows.append(('.rela.text.f%d' % i, RELA, INFO_LINK, calls, at_symtab, 2 * i + 1, 8, 24))
    rows.append(('.symtab', SYMTAB, 0, b''.join(symbols), at_symtab + 1, 1, 8, 24))
    rows.append(('.strtab', STRTAB, 0, names.bytes(), 0, 0, 1, 0))
    return relocatable(rows)


def functions(folder, count):
    place = os.path.join(folder, 'functions-%d' % count)
    os.makedirs(place, exist_ok=True)
    return [write(os.path.join(place, 'c%d.o' % k), call_object(k, count)) for k in range(count)]


def led_object(first, end, leads, body=lambda k: CALL + RETURN):
    """Functions `first` on and before `end`, in a section each and of equal bytes if `body` gives none, with one call: of the function to which each leads; None calls none."""
    names = Texts()
    symbols = [bytes(24)]
    others = {}
    rows = []
    count = end - first
    at_symtab = 2 * count + 1
    for k in range(first, end):
        symbols.append(symbol(names.add('f%d' % k), GLOBAL, FUNC, 2 * (k - first) + 1, 0, len(body(k))))
    if not first:
        symbols.append(symbol(names.add('_start'), GLOBAL, FUNC, 1, 0, len(body(0))))
    for k in range(first, end):
        called = leads(k)
        row = b''
        if called is not None:
            if not first <= called < end and called not in others:
                others[called] = len(symbols)
                symbols.append(symbol(names.add('f%d' % called), GLOBAL, NOTYPE, UNDEF))
            row = entry(0, others[called] if called in others else called - first + 1, R_CALL_PLT)
        rows.append(('.text.f%d' % k, PROGBITS, ALLOC | EXECINSTR, body(k), 0, 0, 4, 0))
        rows.append(('.rela.text.f%d' % k, RELA, INFO_LINK, row, at_symtab, 2 * (k - first) + 1, 8, 24))
    rows.append(('.symtab', SYMTAB, 0, b''.join(symbols), at_symtab + 1, 1, 8, 24))
    rows.append(('.strtab', STRTAB, 0, names.bytes(), 0, 0, 1, 0))
    return relocatable(rows)


def led(folder, name, count, leads, **more):
    """Objects of at most 1,000 of these functions."""
    place = os.path.join(folder, '%s-%d' % (name, count))
    os.makedirs(place, exist_ok=True)
    return [write(os.path.join(place, 'l%d.o' % first), led_object(first, min(first + 1000, count), leads, **more)) for first in range(0, count, 1000)]


def links(folder, count):
    """A chain: each function calls the next, and the last one none, so that no two are alike."""
    return led(folder, 'links', count, lambda k: k + 1 if k + 1 < count else None)


def cycles(folder, count):
    """Two cycles, one of two functions more than the other, so that all are alike: of odd counts the lengths have no common factor."""
    one = count // 2 - 1
    return led(folder, 'cycles', count, lambda k: (k + 1) % one if k < one else one + (k - one + 1) % (count - one))


def led_data(first, end, leads):
    """Sections of data `first` on and before `end`, each with the addresses of those to which it leads."""
    names = Texts()
    symbols = [bytes(24)]
    others = {}
    rows = []
    addresses = []
    for k in range(first, end):
        symbols.append(symbol(names.add('d%d' % k if k else '_start'), GLOBAL, NOTYPE, k - first + 1))
    for k in range(first, end):
        ends = leads(k)
        for other in ends:
            if not first <= other < end and other not in others:
                others[other] = len(symbols)
                symbols.append(symbol(names.add('d%d' % other if other else '_start'), GLOBAL, NOTYPE, UNDEF))
        rows.append(('.data.d%d' % k, PROGBITS, ALLOC | WRITE, bytes(8 * max(1, len(ends))), 0, 0, 8, 0))
        if ends:
            addresses.append((k - first + 1, b''.join(entry(8 * i, others[other] if other in others else other - first + 1, R_64)
                                                      for i, other in enumerate(ends))))
    at_symtab = len(rows) + len(addresses) + 1
    rows += [('.rela', RELA, INFO_LINK, row, at_symtab, target, 8, 24) for target, row in addresses]
    rows.append(('.symtab', SYMTAB, 0, b''.join(symbols), at_symtab + 1, 1, 8, 24))
    rows.append(('.strtab', STRTAB, 0, names.bytes(), 0, 0, 1, 0))
    return relocatable(rows)


def graph(folder, name, count, leads):
    """Objects of at most 20,000 sections."""
    place = os.path.join(folder, '%s-%d' % (name, count))
    os.makedirs(place, exist_ok=True)
    return [write(os.path.join(place, 'd%d.o' % first), led_data(first, min(first + 20000, count), leads)) for first in range(0, count, 20000)]


def layers(folder, count):
    """The first section leads to all 500 of the first layer, and each of a layer to ten of the next."""
    chance = random.Random(count)

    def leads(k):
        if k == 0:
            return list(range(1, 501))
        after = 1 + ((k - 1) // 500 + 1) * 500
        return [after + chance.randrange(500) for _ in range(10)] if after < 1 + 500 * count else []
    return graph(folder, 'layers', 1 + 500 * count, leads)


def at_random(folder, count):
    chance = random.Random(count)
    return graph(folder, 'random', count, lambda k: [chance.randrange(count) for _ in range(3)])


def numbered(k):
    """A function's bytes with a number of its own: `lui a1, K`."""
    return CALL + (k << 12 | 11 << 7 | 0x37).to_bytes(4, 'little') + RETURN


def shapes(folder, count):
    """A thousand shapes, each calling one of another shape: there are as many classes."""
    each = max(count // 1000, 1)
    return led(folder, 'shapes', count, lambda k: ((7 * k + 1) % 1000 + 1000 * ((k // 1000 + 13) % each)) % count, body=lambda k: numbered(k % 1000))


def unlike(folder, count):
    """Functions that all differ, each calling the next."""
    return led(folder, 'unlike', count, lambda k: (k + 1) % count, body=numbered)


# A CIE as compilers write it, of augmentation "zR": distances of four bytes from where they stand; the stack pointer is the frame's
CIE = bytes.fromhex('1000000000000000017a5200017c01011b0c0200')


def framed_object(first, count, texts=1, lists=1):
    """Functions `first` on, `count` of them, in `texts` sections, with an FDE each in `lists` sections of unwind records, all with a CIE; so many have to share out evenly."""
    names = Texts()
    rows = [('.text.f%d' % (first + k), PROGBITS, ALLOC | EXECINSTR, RETURN * (count // texts), 0, 0, 4, 0) for k in range(texts)]
    places = [0] + [placed(1 + k * texts // count) for k in range(count)]
    symbols = [bytes(24)] + [symbol(names.add('f%d' % (first + k)), GLOBAL, FUNC, places[1 + k], 4 * (k % (count // texts)), 4) for k in range(count)]
    if not first:
        places.append(1)
        symbols.append(symbol(names.add('_start'), GLOBAL, FUNC, 1, 0, 4))
    at_symtab = texts + 2 * lists + 1
    for number in range(lists):
        records, fixes = [CIE], []
        for k in range(count // lists):
            at, function = len(CIE) + 20 * k, 1 + number * (count // lists) + k
            records.append((16).to_bytes(4, 'little') + (at + 4).to_bytes(4, 'little') + bytes(12))
            fixes += [entry(at + 8, function, R_32_PCREL), entry(at + 12, function, R_ADD32, 4), entry(at + 12, function, R_SUB32)]
        rows.append(('.eh_frame', PROGBITS, ALLOC, b''.join(records), 0, 0, 4, 0))
        rows.append(('.rela.eh_frame', RELA, INFO_LINK, b''.join(fixes), at_symtab, len(rows), 8, 24))
    rows.append(('.symtab', SYMTAB, 0, b''.join(symbols), at_symtab + 1, 1, 8, 24))
    rows.append(('.strtab', STRTAB, 0, names.bytes(), 0, 0, 1, 0))
    if at_symtab > RESERVED:
        rows.append(indexes(places, at_symtab))
    return relocatable(rows)


def framed(folder, name, count, files=1, **more):
    """So many objects of these functions, `count` in all."""
    place = os.path.join(folder, '%s-%d' % (name, count))
    os.makedirs(place, exist_ok=True)
    return [write(os.path.join(place, 'e%d.o' % k), framed_object(k * (count // files), count // files, **more)) for k in range(files)]


# What G++ asks of the C++ library for such functions; all are empty here
CXX_LIBRARY = ['_ZTIl', '__cxa_allocate_exception', '__cxa_throw', '__cxa_begin_catch', '__cxa_end_catch', '__cxa_rethrow', '_Unwind_Resume', '__gxx_personality_v0',
               '_ZN5GuardC1El', '_ZN5GuardD1Ev']


def cxx(folder, count):
    """Objects of 100 functions each, which call the next function and one of another object, clean up, and catch what they call; and one in the C++ library's place."""
    place = os.path.join(folder, 'cxx-%d' % count)
    os.makedirs(place, exist_ok=True)
    files = [write(os.path.join(place, 'library.o'), simple(CXX_LIBRARY, ['_Z2f0l'], entry_point=True))]
    for first in range(0, count, 100):
        called = [(k + 1) % count for k in range(first, first + 100)] + [k * 7919 % count for k in range(first, first + 100)]
        with open(os.path.join(place, 'c%d.cpp' % first), 'w') as file:
            file.write('struct Guard { long kept; explicit Guard(long); ~Guard(); };\n')
            file.writelines('long f%d(long);\n' % k for k in sorted(set(called)))
            for k in range(first, first + 100):
                file.write('long f%d(long n) { Guard guard(n); try { if (n < %d) throw n; Guard more(n + 1); return f%d(n - 1) + f%d(n / 2); } catch (long m) { if (m == %d) throw; '
                           'return m + guard.kept; } }\n' % (k, k % 64, (k + 1) % count, k * 7919 % count, k % 7))
        files.append(file.name[:-4] + '.o')
    with multiprocessing.pool.ThreadPool() as pool:
        compiler = 'riscv64-linux-gnu-g++ -O2 -fno-pie -ffunction-sections -c -o'.split()
        pool.map(lambda name: os.path.exists(name) or subprocess.run(compiler + [name, name[:-2] + '.cpp'], check=True), files[1:])
    return files


def unit_source(functions):
    """C++ of one unit: each function calls the next and one of another unit; some have strings, of which some are shared, or call a member of a template, which stands
    in a group; a class and tables have pointers to functions. `unit0000` and `that0000` are the two units' names."""
    lines = ['long note(const char *, long);', 'struct Shape { long own; virtual long area(long) const; virtual long edge(long) const; };',
             'template <int N> struct Part { long held; __attribute__((noinline)) long turn(long n) { held += n; return note("a part of the shape is turned", held * N); } };',
             'namespace that0000 { %s }' % ' '.join('long function_%d(long);' % k for k in range(functions)),
             'namespace unit0000 {', 'struct Own : Shape { long area(long n) const override; long edge(long n) const override; };']
    lines += ['long function_%d(long);' % k for k in range(functions)]
    for k in range(functions):
        body = 'n += function_%d(n) + that0000::function_%d(n + %d);' % ((k + 1) % functions, k * 7 % functions, k)
        if k % 4 == 0:
            body += ' Part<%d> part{n}; n += part.turn(n);' % (k % 16)
        if k % 3 == 1:
            body += ' n += note("function %d of unit0000", n);' % k
        if k % 5 == 2:
            body += ' n += note("what is shared by all, number %d", n);' % (k % 10)
        lines.append('long function_%d(long n) { %s return n ^ %d; }' % (k, body, k))
    lines += ['long Own::area(long n) const { return n + function_1(n); }', 'long Own::edge(long n) const { return own + function_2(n); }',
              'extern long (*const table[])(long); long (*const table[])(long) = {%s};' % ', '.join('function_%d' % k for k in range(0, functions, 2)),
              'const char *names[] = {%s};' % ', '.join('"name %d"' % k for k in range(10)), '}']
    return '\n'.join(lines + [''])


# What such units ask of others, beside one another; all are empty here
UNIT_LIBRARY = ['_Z4notePKcl', '_ZNK5Shape4areaEl', '_ZNK5Shape4edgeEl', '_ZTI5Shape', '_ZTVN10__cxxabiv120__si_class_type_infoE']


def units(folder, count, headers=(), options=()):
    """Units of 40 functions: one is compiled, and the others are made of it by their numbers; and an object in the place of libraries."""
    place = os.path.join(folder, '%s-%d' % ('debug' if headers else 'units', count))
    os.makedirs(place, exist_ok=True)
    source, compiled = os.path.join(place, 'unit.cpp'), os.path.join(place, 'unit.o')
    with open(source, 'w') as file:
        file.write(''.join('#include <%s>\n' % header for header in headers) + unit_source(40))
    subprocess.run(['riscv64-linux-gnu-g++', '-O2', '-fno-pie', '-ffunction-sections', *options, '-c', '-o', compiled, source], check=True)
    with open(compiled, 'rb') as file:
        contents = file.read()
    os.remove(compiled)
    files = [write(os.path.join(place, 'library.o'), simple(UNIT_LIBRARY, ['_ZN8unit000010function_0El'], entry_point=True))]
    for k in range(count):
        numbered = contents.replace(b'unit0000', b'unit%04d' % k).replace(b'that0000', b'unit%04d' % (k * 7919 % count))
        files.append(write(os.path.join(place, 'u%d.o' % k), numbered))
    return files


def library(folder, share):
    """So many hundredths of the members of Debian's musl for RISC-V, which is fetched once, and what is asked of the compiler's library."""
    place = os.path.join(folder, 'library')
    if not os.path.exists(os.path.join(place, 'libc.a')):
        os.makedirs(place, exist_ok=True)
        # (scripts/real/debian.sh gets it into the folder alone)
        subprocess.run(['bash', '-c', 'work=$PWD; . "$0"; once lists make_lists && once musl get_musl && cp "$(find musl -name libc.a)" .', os.path.join(HERE, 'real/debian.sh')],
                       cwd=place, check=True)
    with open(os.path.join(place, 'libc.a'), 'rb') as file:
        found = [contents for _, contents in members(file.read())]
    chosen = found[:len(found) * share // 100]
    whole = os.path.join(place, 'members-%d' % share)
    os.makedirs(whole, exist_ok=True)
    files = [write(os.path.join(whole, 'm%d.o' % k), contents) for k, contents in enumerate(chosen)]
    # what no member defines is defined as empty, and the entry stands beside it
    defined, undefined = set(), set()
    for contents in chosen:
        for each in File(contents).symbols():
            if each.binding != LOCAL:
                (undefined if each.section == UNDEF else defined).add(each.name)
    files.append(write(os.path.join(whole, 'rest.o'), simple(sorted(undefined - defined - {'_start'}), [], entry_point=True)))
    return files


def write(path, contents):
    with open(path, 'wb') as file:
        file.write(contents)
    return path


def tree(folder, count, hints=False):
    """The tree's objects, in a folder for each count, since an object's callees depend on it."""
    place = os.path.join(folder, '%s-%d' % ('relaxed' if hints else 'tree', count))
    os.makedirs(place, exist_ok=True)
    return [write(os.path.join(place, 'gen%d.o' % k), tree_object(k, count, hints)) for k in range(count)]


def wide(folder, count):
    return [write(os.path.join(folder, 'wide-%d.o' % count), wide_object(count))]


def sections(folder, count):
    return [write(os.path.join(folder, 'sections-%d.o' % count), many_sections(count))]


def pairs(folder, count):
    return [write(os.path.join(folder, 'pairs-%d.o' % count), distances(count))]


def data(folder, megabytes):
    """One object of so much data, with an address in each 4096 bytes."""
    words = megabytes * 10 ** 6 // 4096
    names = Texts()
    symbols = [bytes(24), symbol(names.add('_start'), GLOBAL, FUNC, 1, 0, 4), symbol(names.add('data'), GLOBAL, NOTYPE, 3)]
    return [write(os.path.join(folder, 'data-%d.o' % megabytes), relocatable([
        ('.text', PROGBITS, ALLOC | EXECINSTR, RETURN, 0, 0, 4, 0),
        ('.rela.data', RELA, INFO_LINK, b''.join(entry(4096 * k, 2, R_64, k) for k in range(words)), 4, 3, 8, 24),
        ('.data', PROGBITS, ALLOC | WRITE, random.Random(megabytes).randbytes(4096) * words, 0, 0, 8, 0),
        ('.symtab', SYMTAB, 0, b''.join(symbols), 5, 1, 8, 24),
        ('.strtab', STRTAB, 0, names.bytes(), 0, 0, 1, 0)]))]


def chain(folder, count):
    root = write(os.path.join(folder, 'root.o'), simple([], ['c0'], entry_point=True))
    return [root, write(os.path.join(folder, 'lib-%d.a' % count), chain_archive(count))]


# mode: the maker of its files, what it counts, the sizes, those of its pictures, and what is linked
MODES = {
    'objects': (tree, 'objects', (1000, 4000, 16000), (1000, 2000, 4000, 8000, 16000), 'Small objects that call each other in a binary tree'),
    'symbols': (wide, 'symbols', (100000, 200000), (25000, 50000, 100000, 200000), 'One object: its symbols, and three times as many relocations'),
    'sections': (sections, 'sections', (7000, 70000, 1000000), (7000, 20000, 70000, 250000, 1000000), 'One object of many sections'),
    'pairs': (pairs, 'pairs', (250000, 500000, 1000000), (125000, 250000, 500000, 1000000), 'One object: distances as ULEB128 numbers'),
    'archive': (chain, 'members', (10000, 20000), (2500, 5000, 10000, 20000), 'An archive of which a chain of half the members is live'),
    'strings': (lambda folder, count: string_files(folder, count, 100), 'strings', (250000, 500000, 1000000), (125000, 250000, 500000, 1000000),
                'Strings in 100 files, of which half repeat'),
    'string': (lambda folder, count: string_files(folder, count, 1), 'strings', (250000, 500000, 1000000), (125000, 250000, 500000, 1000000),
               'Strings in one file, of which half repeat'),
    'names': (lambda folder, count: name_files(folder, count, 100), 'symbols', (250000, 500000, 1000000), (125000, 250000, 500000, 1000000),
              'Global symbols in 100 files, all of other names'),
    'name': (lambda folder, count: name_files(folder, count, 1), 'symbols', (250000, 500000, 1000000), (125000, 250000, 500000, 1000000),
             'Global symbols in one file, all of other names'),
    'groups': (group_files, 'groups', (25000, 50000, 100000), (12000, 25000, 50000, 100000), 'COMDAT groups, each in two files'),
    'functions': (functions, 'objects', (500, 1000, 2000), (250, 500, 1000, 2000), 'Objects of 30 functions with two calls each'),
    'links': (links, 'functions', (8000, 16000, 32000, 64000), (8000, 16000, 32000, 64000), 'Functions of equal bytes in a chain, folded with `--icf all`: none is alike'),
    'shapes': (shapes, 'functions', (50000, 100000), (25000, 50000, 100000), 'Functions of 1,000 shapes, folded with `--icf all`'),
    'unlike': (unlike, 'functions', (30000, 60000), (15000, 30000, 60000), 'Functions of which no two are alike, with `--icf all`'),
    'cycles': (cycles, 'functions', (2008, 20008), (1004, 2008, 4008, 20008), 'Functions of equal bytes in two cycles, folded with `--icf all`: all are alike'),
    'chain': (lambda folder, count: graph(folder, 'chain', count, lambda k: [k + 1] if k + 1 < count else []), 'sections', (100000, 200000),
              (50000, 100000, 200000), 'Sections in a chain, with `--gc-sections`'),
    'star': (lambda folder, count: graph(folder, 'star', count, lambda k: [] if k else range(1, count)), 'sections', (100000, 200000),
             (50000, 100000, 200000), 'Sections to all of which one leads, with `--gc-sections`'),
    'layers': (layers, 'layers', (400, 800), (200, 400, 800), 'Layers of 500 sections with ten addresses of the next layer each, with `--gc-sections`'),
    'random': (at_random, 'sections', (100000, 200000), (50000, 100000, 200000), 'Sections with three addresses of others each, with `--gc-sections`'),
    'frames': (lambda folder, count: framed(folder, 'frames', count), 'FDEs', (50000, 100000, 200000), (25000, 50000, 100000, 200000),
               'Functions of one section with an FDE each, in one section'),
    'owners': (lambda folder, count: framed(folder, 'owners', count, texts=count), 'FDEs', (50000, 100000, 200000), (25000, 50000, 100000, 200000),
               'Functions in a section each, with an FDE each in one section'),
    'lists': (lambda folder, count: framed(folder, 'lists', count, texts=count, lists=count), 'FDEs', (50000, 100000, 200000), (25000, 50000, 100000, 200000),
              'Functions in a section each, with an FDE in a section each'),
    'files': (lambda folder, count: framed(folder, 'files', count, files=count), 'objects', (4000, 8000, 16000), (1000, 2000, 4000, 8000, 16000),
              'Objects of one function with an FDE'),
    'cxx': (cxx, 'functions', (2500, 5000, 10000), (1200, 2500, 5000, 10000), 'C++ by G++: functions that clean up and catch, in objects of 100'),
    'units': (units, 'objects', (250, 500, 1000), (125, 250, 500, 1000), 'C++ by G++: objects of 40 functions with groups, strings and tables, symbols kept and calls relaxed'),
    'debug': (lambda folder, count: units(folder, count, headers=('string', 'vector'), options=('-g',)), 'objects', (250, 500, 1000), (125, 250, 500, 1000),
              'The same with debug data, stripped and not relaxed'),
    'library': (library, 'hundredths', (25, 50, 100), (12, 25, 50, 100), 'The members of a C library, symbols kept and calls relaxed'),
    'relaxed': (lambda folder, count: tree(folder, count, hints=True), 'objects', (1000, 4000, 16000), (1000, 2000, 4000, 8000, 16000),
                'Small objects that call each other in a binary tree, symbols kept and calls relaxed'),
    'data': (data, 'MB', (50, 100, 200), (25, 50, 100, 200), 'One object of little but data'),
}
# what modes ask for beside: folding, which GNU ld does not have, or collection
FOLDED = ('links', 'cycles', 'shapes', 'unlike')
NEWER = ('pairs',)                              # relocations that linkers of before 2024 do not know: what these say is told, and is no fault
COLLECTED = ('chain', 'star', 'layers', 'random')
FRAMED = ('frames', 'owners', 'lists', 'files', 'cxx', 'units', 'debug')     # a table of unwind records, which rvld always makes
WHOLE = ('units', 'library', 'relaxed')         # symbols are kept and calls relaxed, as linkers do without options
COMPILED = {'cxx': 'riscv64-linux-gnu-g++', 'units': 'riscv64-linux-gnu-g++', 'debug': 'riscv64-linux-gnu-g++', 'library': 'apt-get'}     # what makes the files


PROGRAMS = {'lld': 'ld.lld', 'lld-19': 'ld.lld-19', 'mold': 'mold', 'ld': 'riscv64-linux-gnu-ld'}


def commands(rvld, before, peers, threads):
    """(linker, workers, words before the files): all link statically, without relaxing, and strip."""
    rows = []
    for n in threads:
        rows += [(name, n, [program, '-s', '--no-relax', '--threads', str(n)]) for name, program in (('rvld', rvld), ('before', before)) if program]
        rows += [(peer, n, [PROGRAMS[peer], '-static', '-s', '--no-relax', '--threads=%d' % n]) for peer in ('lld', 'lld-19') if peer in peers]
        if 'mold' in peers:
            rows.append(('mold', n, ['mold', '-m', 'elf64lriscv', '-static', '-s', '--no-relax', '--no-fork', '--thread-count', str(n)]))
    if 'ld' in peers:
        rows.append(('ld', 1, ['riscv64-linux-gnu-ld', '-static', '-s', '--no-relax']))
    return rows


def in_one_archive(files, path):
    """The words for mold in the place of many files: one archive of all, of which nothing is left out."""
    contents = []
    for name in files:
        with open(name, 'rb') as file:
            contents.append((os.path.basename(name), file.read()))
    write(path, archive(contents))
    return ['--whole-archive', path, '--no-whole-archive']


def greatest_memory(pid):
    """What the system has noted of a process so far, in MB: 0 where it is gone."""
    try:
        with open('/proc/%d/status' % pid) as status:
            for row in status:
                if row.startswith('VmHWM'):
                    return int(row.split()[1]) / 1024
    except OSError:
        pass
    return 0


def run(words, limit):
    """Seconds by the clock and of all processors, greatest memory in MB, status and line of one run; the status is None where the time was over."""
    begun = time.perf_counter()
    child = subprocess.Popen(words, stdout=subprocess.DEVNULL, stderr=subprocess.PIPE)
    seen = [0]
    over = threading.Event()

    def watch():
        while not over.wait(0.005):
            seen[0] = max(seen[0], greatest_memory(child.pid))
            if time.perf_counter() - begun > limit:
                child.kill()
                return

    watcher = threading.Thread(target=watch)
    watcher.start()
    line = child.stderr.read()
    _, status, usage = os.wait4(child.pid, 0)
    seconds = time.perf_counter() - begun
    over.set()
    watcher.join()
    child.stderr.close()
    child.returncode = os.waitstatus_to_exitcode(status)
    # a child's peak counts from this process's own, so what was seen while it ran stands for the small ones
    own = resource.getrusage(resource.RUSAGE_SELF).ru_maxrss
    peak = usage.ru_maxrss / 1024 if usage.ru_maxrss > own else seen[0]
    return seconds, usage.ru_utime + usage.ru_stime, peak, None if seconds > limit else child.returncode, line


def made_apart(kept, make, *words):
    """What `make` gives, worked out by a process of its own, so that this one stays small: it only gives names of files. The list `kept`, if any, holds them for later runs."""
    if kept and os.path.exists(kept):
        with open(kept) as lines:
            files = lines.read().splitlines()
        if all(map(os.path.exists, files)):
            return files
    receiver, sender = multiprocessing.Pipe(False)
    maker = multiprocessing.get_context('fork').Process(target=lambda: sender.send(make(*words)))
    maker.start()
    given = receiver.recv()
    maker.join()
    if kept:
        with open(kept, 'w') as lines:
            lines.writelines(name + '\n' for name in given)
    return given


def measure(what, files, rows, runs, limit, out):
    """{(linker, workers): (median, fastest, median of all processors, memory)} for the linkers that linked these files."""
    megabytes = sum(os.path.getsize(file) for file in files) / 1e6
    whole = made_apart(None, in_one_archive, files, out + '.a') if any(linker == 'mold' for linker, _, _ in rows) and len(files) > 100 else files
    times = {}
    processors = {}
    memory = {}
    gone = set()
    made = {}                                   # the digest of rvld's executable for each number of workers
    for turn in range(runs + 1):                # the first turn only warms the files
        for linker, workers, words in rows:
            key = (linker, workers)
            if key in gone:
                continue
            if os.path.exists(out):
                os.remove(out)
            seconds, worked, peak, status, line = run(words + ['-o', out] + (whole if linker == 'mold' else files), limit)
            if status != 0 or not os.path.exists(out):
                print('%s: %s with %d workers: status %s %s' % (what, linker, workers, status, line[:200].decode(errors='replace')))
                gone.add(key)
                continue
            if linker == 'rvld' and not turn:
                with open(out, 'rb') as file:
                    made[workers] = hashlib.sha256(file.read()).digest()
                if made[workers] != next(iter(made.values())):
                    print('%s: rvld with %d workers makes other bytes' % (what, workers))
                    gone.add(key)
            if turn:
                times.setdefault(key, []).append(seconds)
                processors.setdefault(key, []).append(worked)
            memory[key] = max(peak, memory.get(key, 0))
    if whole != files:
        os.remove(out + '.a')
    return {key: (statistics.median(list_), min(list_), statistics.median(processors[key]), memory[key])
            for key, list_ in times.items() if key not in gone}, megabytes, gone


# ------------------------------------------------------------------------------------------------------------------ pictures

HERE = os.path.dirname(os.path.abspath(__file__))
NAMES = {'rvld': 'rvld', 'before': 'rvld before', 'lld': 'ld.lld', 'lld-19': 'ld.lld 19', 'mold': 'mold', 'ld': 'GNU ld'}
COLOURS = {'rvld': '#c2410c', 'before': '#d97706', 'lld': '#1d4ed8', 'lld-19': '#7c3aed', 'mold': '#15803d', 'ld': '#6b7280'}
WIDTH, HEIGHT, LEFT, RIGHT, TOP, BOTTOM = 640, 380, 64, 92, 58, 48


def ticks(least, most):
    """Round numbers of an axis whose steps are ratios, from below the least to above the most value."""
    steps, at = [], 10.0 ** math.floor(math.log10(least))
    while not steps or steps[-1] < most:
        steps += [at * digit for digit in (1, 2, 5)]
        at *= 10
    first = max(k for k, step in enumerate(steps) if step <= least * 1.0001)
    last = min(k for k, step in enumerate(steps) if step >= most * 0.9999)
    return steps[first:max(last, first + 1) + 1]


def spelled(number):
    return '{:,}'.format(int(number)) if number >= 1 else '%g' % number


def picture(title, below, across, upwards, lines):
    """An SVG picture. Lines: [(name, colour, is dashed, [(x, y)])]; both axes have ratios as steps, so a straight line at 45 degrees grows as its input."""
    points = [point for _, _, _, line in lines for point in line]
    xs, ys = sorted({x for x, _ in points}), ticks(min(y for _, y in points), max(y for _, y in points))
    low, high = (xs[0], xs[-1]) if len(xs) > 1 else (xs[0] / 2, xs[0] * 2)

    def at_x(x):
        return LEFT + (WIDTH - LEFT - RIGHT) * math.log(x / low) / math.log(high / low)

    def at_y(y):
        return HEIGHT - BOTTOM - (HEIGHT - TOP - BOTTOM) * math.log(y / ys[0]) / math.log(ys[-1] / ys[0])

    def text(x, y, words, **more):
        more = ''.join(' %s="%s"' % (name.replace('_', '-'), value) for name, value in more.items())
        return '<text x="%.1f" y="%.1f"%s>%s</text>' % (x, y, more, escape(words))

    out = ['<svg xmlns="http://www.w3.org/2000/svg" viewBox="0 0 %d %d" width="%d" height="%d" font-family="sans-serif" font-size="12" fill="#374151">'
           % (WIDTH, HEIGHT, WIDTH, HEIGHT), '<title>%s</title>' % escape(title), '<rect width="100%" height="100%" fill="#ffffff"/>',
           text(LEFT, 22, title, font_size=15, font_weight='bold', fill='#111827'), text(LEFT, 40, below)]
    for y in ys:
        out.append('<path d="M%d %.1fH%d" stroke="#e5e7eb"/>' % (LEFT, at_y(y), WIDTH - RIGHT))
        out.append(text(LEFT - 8, at_y(y) + 4, spelled(y), text_anchor='end'))
    for x in xs:
        out.append('<path d="M%.1f %dV%d" stroke="#e5e7eb"/>' % (at_x(x), TOP, HEIGHT - BOTTOM))
        out.append(text(at_x(x), HEIGHT - BOTTOM + 18, spelled(x), text_anchor='middle'))
    out.append(text((LEFT + WIDTH - RIGHT) / 2, HEIGHT - 10, across, text_anchor='middle'))
    out.append(text(16, (TOP + HEIGHT - BOTTOM) / 2, upwards, text_anchor='middle',
                    transform='rotate(-90 16 %.1f)' % ((TOP + HEIGHT - BOTTOM) / 2)))
    # names stand at the lines' ends, moved apart where these are close
    ends, last = {}, -math.inf
    for name, _, _, line in sorted(lines, key=lambda each: at_y(each[3][-1][1])):
        ends[name] = last = max(at_y(line[-1][1]), last + 15)
    over = max(0, last - (HEIGHT - BOTTOM))
    for name, colour, is_dashed, line in lines:
        path = 'M' + 'L'.join('%.1f %.1f' % (at_x(x), at_y(y)) for x, y in line)
        out.append('<path d="%s" fill="none" stroke="%s" stroke-width="2"%s/>' % (path, colour, ' stroke-dasharray="5 4"' if is_dashed else ''))
        out += ['<circle cx="%.1f" cy="%.1f" r="3" fill="%s"/>' % (at_x(x), at_y(y), colour) for x, y in line]
        out.append(text(at_x(line[-1][0]) + 9, ends[name] + 4 - over, name, fill=colour, font_weight='bold'))
    return '\n'.join(out + ['</svg>', ''])


def draw(folder, mode, rows, how):
    """The pictures of a mode's figures, [(size, linker, workers, median, least, memory, processor time)] in ms and MB. Gives their names, with what each shows."""
    counted = MODES[mode][1]
    some = sorted({row[2] for row in rows})

    def lines(workers, column):
        """For each linker its points with that many workers; GNU ld has one."""
        for linker in NAMES:
            own = 1 if linker == 'ld' else workers
            points = sorted((row[0], row[column]) for row in rows if row[1] == linker and row[2] == own and row[column] > 0)
            if points:
                yield NAMES[linker], COLOURS[linker], linker == 'ld' and workers != 1, points

    made = []
    for workers, column, upwards, name in [(n, 3, 'milliseconds', '%d' % n) for n in some] + [(some[-1], 5, 'MB', 'memory')]:
        found = list(lines(workers, column))
        if found:
            threads = '%d thread%s' % (workers, '' if workers == 1 else 's')
            title = 'Time with ' + threads if column == 3 else 'Greatest memory with ' + threads
            dashed = '; GNU ld (dashed) has one' if any(is_dashed for _, _, is_dashed, _ in found) else ''
            file = '%s-%s.svg' % (mode, name)
            with open(os.path.join(folder, file), 'w') as out:
                out.write(picture('%s, by %s' % (title, counted), how.split(', ')[0] + dashed, counted, upwards, found))
            made.append((file, title + dashed))
    return made


def keep(folder, mode, rows, how):
    """Writes a mode's figures, for pictures to be drawn of later, with how they were measured."""
    with open(os.path.join(folder, mode + '.tsv'), 'w') as out:
        out.write('# %s\n# size\tlinker\tthreads\tmedian ms\tleast ms\tMB\tprocessor ms\n' % how)
        for row in rows:
            out.write('%d\t%s\t%d\t%.1f\t%.1f\t%.1f\t%.1f\n' % row)


def kept(folder, mode):
    """The figures that were kept of a mode, and how they were measured; none where there are none."""
    rows, how = [], ''
    path = os.path.join(folder, mode + '.tsv')
    if os.path.exists(path):
        with open(path) as lines:
            how = next(lines)[2:].strip()
            for line in lines:
                if not line.startswith('#'):
                    size, linker, workers, *measured = line.split('\t')
                    rows.append((int(size), linker, int(workers), *map(float, measured)))
    return rows, how


def page(folder):
    """Pictures of all figures that are kept in the folder, and a page with them and with tables."""
    out = ['# Figures with pictures', '', 'Made by `scripts/speed.py plots`, and drawn anew from the kept figures by `scripts/speed.py draw`. All link statically; but for those that say so they do not relax, and',
           'strip. Time is what passes on the clock, loading and writing included. Rows have milliseconds with so many threads, and megabytes with',
           'the most. In the pictures each step of an axis is a ratio: what takes twice as long for twice as much rises by the same angle everywhere.']
    for mode, (_, counted, _, _, what) in MODES.items():
        rows, how = kept(folder, mode)
        if not rows:
            continue
        out += ['', '## %s' % what, '', how, '']
        out += ['![%s](%s)' % made[::-1] for made in draw(folder, mode, rows, how)]
        found = {(size, linker, workers): (median, memory) for size, linker, workers, median, _, memory, *_ in rows}
        columns = sorted({(list(NAMES).index(linker), linker, workers) for _, linker, workers, *_ in rows})
        out += ['', '| %s | %s |' % (counted, ' | '.join(['%s, %d' % (NAMES[linker], n) for _, linker, n in columns]
                                                       + ['%s, MB' % NAMES[linker] for linker in NAMES if any(linker == each for _, each, _ in columns)])),
                '|---' * (1 + len(columns) + len({linker for _, linker, _ in columns})) + '|']
        for size in sorted({row[0] for row in rows}):
            cells = ['%.0f' % found[size, linker, n][0] if (size, linker, n) in found else '' for _, linker, n in columns]
            for linker in NAMES:
                own = [n for _, each, n in columns if each == linker]
                if own:
                    cells.append('%.0f' % found[size, linker, max(own)][1] if (size, linker, max(own)) in found else '')
            out.append('| %s | %s |' % (spelled(size), ' | '.join(cells)))
    with open(os.path.join(folder, 'README.md'), 'w') as file:
        file.write('\n'.join(out) + '\n')


def measured_how(peers, runs):
    """A sentence on how much was measured, where, and beside which linkers."""
    said = []
    for peer, program in PROGRAMS.items():
        if peer in peers:
            line = subprocess.run([program, '--version'], capture_output=True, text=True).stdout.split('\n')[0]
            number = [word for word in line.replace('(', ' ').split() if word[:1].isdigit()]
            said.append('%s %s' % (NAMES[peer].split(' 19')[0], number[-1] if peer == 'ld' else number[0]) if number else NAMES[peer])
    return '%s, on a machine with %d processors%s.' % ('Medians of %d runs' % runs if runs > 1 else 'One run', os.cpu_count() or 1,
                                                       ', beside ' + ', '.join(said) if said else '')


def main():
    reader = argparse.ArgumentParser(usage=__doc__)
    reader.add_argument('mode', choices=list(MODES) + ['all', 'plots', 'draw'])
    reader.add_argument('rvld', nargs='?')
    reader.add_argument('--before', help='another rvld')
    reader.add_argument('--runs', type=int, default=5)
    reader.add_argument('--peers', default='lld,mold,ld')
    reader.add_argument('--threads')
    reader.add_argument('--limit', type=float, default=120, help='seconds after which a run is ended')
    reader.add_argument('--sizes', help='sizes in place of the mode\'s own, between commas')
    reader.add_argument('--keep', help='a folder for the files, which then stay')
    reader.add_argument('--figures', help='a folder for figures and pictures')
    reader.add_argument('--small', action='store_true')
    words = reader.parse_args()
    is_plots = words.mode == 'plots'
    figures = words.figures or (os.path.join(HERE, '../docs/figures') if words.mode in ('plots', 'draw') else None)
    if figures:
        os.makedirs(figures, exist_ok=True)
    if words.mode == 'draw':
        return page(figures)
    words.threads = words.threads or ('1,4' if is_plots else '1,2,4')
    rvld = words.rvld or os.environ.get('RVLD') or os.path.join(HERE, '../crates/rvld/out/rvld')
    if rvld == 'none':
        rvld = None
    elif not os.access(rvld, os.X_OK):
        sys.exit('speed: no program at ' + rvld)
    else:
        rvld = os.path.abspath(rvld)
    asked_peers = words.peers.split(',')
    peers = [peer for peer, program in PROGRAMS.items() if peer in asked_peers and shutil.which(program)]
    for peer in asked_peers:
        if peer not in peers:
            print('speed: skipped %s (%s is not there)' % (peer, PROGRAMS.get(peer, peer)))
    rows = commands(rvld, words.before and os.path.abspath(words.before), peers, [int(n) for n in words.threads.split(',')])
    folder = words.keep or tempfile.mkdtemp()
    os.makedirs(folder, exist_ok=True)
    passed = failed = 0
    try:
        for mode in MODES if words.mode in ('all', 'plots') else [words.mode]:
            make, counted, sizes, more_sizes, _ = MODES[mode]
            asked = rows
            if mode in FOLDED:
                asked = [(linker, n, words + ['--icf=all']) for linker, n, words in rows if linker != 'ld']
            elif mode in COLLECTED:
                asked = [(linker, n, words + ['--gc-sections']) for linker, n, words in rows]
            elif mode in FRAMED:
                asked = [(linker, n, words + ['--eh-frame-hdr'] * (linker in PROGRAMS)) for linker, n, words in rows]
            if mode in WHOLE:
                asked = [(linker, n, [word for word in words if word not in ('-s', '--no-relax')]) for linker, n, words in asked]
            if mode in COMPILED and not shutil.which(COMPILED[mode]):
                print('speed: skipped %s (%s is not there)' % (mode, COMPILED[mode]))
                continue
            before, noted = {}, []
            print('%-16s %-6s %7s %9s %9s %9s %8s %8s %8s %7s' %
                  (mode, 'by', 'workers', 'median ms', 'least ms', 'cpu ms', 'MB', 'ms / MB', 'to rvld', 'growth'))
            for size in map(int, words.sizes.split(',')) if words.sizes else more_sizes if is_plots else sizes:
                size = max(size // 100, 1) if words.small else size
                what = '%d %s' % (size, counted)
                files = made_apart(words.keep and os.path.join(folder, '%s-%d.files' % (mode, size)), make, folder, size)
                found, megabytes, gone = measure(what, files, asked, words.runs, words.limit, os.path.join(folder, 'out'))
                passed += len(found)
                failed += sum(mode not in NEWER or linker in ('rvld', 'before') for linker, _ in gone)
                for (linker, workers), (median, least, worked, peak) in found.items():
                    noted.append((size, linker, workers, median * 1e3, least * 1e3, peak, worked * 1e3))
                    own = found.get(('rvld', workers))
                    print('%-16s %-6s %7d %9.1f %9.1f %9.1f %8.1f %8.2f %8s %7s' %
                          (what, linker, workers, median * 1e3, least * 1e3, worked * 1e3, peak, median * 1e3 / megabytes,
                           '%.2f' % (median / own[0]) if own else '-',
                           '%.2f' % (median / before[linker, workers]) if (linker, workers) in before else '-'), flush=True)
                before = {key: median for key, (median, _, _, _) in found.items()}
                print('%-16s input of %.1f MB in %d files' % ('', megabytes, len(files)))
            if figures and noted:
                keep(figures, mode, noted, measured_how(peers, words.runs))
        if figures:
            page(figures)
    finally:
        if not words.keep:
            shutil.rmtree(folder)
    print('%d passed, %d failed' % (passed, failed))
    sys.exit(1 if failed else 0)


if __name__ == '__main__':
    main()
