#!/usr/bin/env python3
"""Has rvld read the unwind records of objects and of all members of archives, one after the other: none may be refused for its records (F19), and each that has
some must be so once the first of them is made longer than its section. rvld looks at records last of all in a file, so an object that it refuses for something else
is given once more without that: the type GNU_IFUNC (F17), a symbol past its section (F09).

Usage: scripts/tests/library-records.py RVLD FILE..     names of files that are not there are passed over
Writes `OK: FILE: ..` for each file; else a line for each object. The status is 0 where all are read.
"""
import os
import subprocess
import sys
import tempfile

sys.path.insert(0, os.path.dirname(os.path.dirname(os.path.realpath(__file__))))
from elf.constants import ALLOC, ARCHIVE, ELF, FUNC, PROGBITS
from elf.read import File, members


def line_of(rvld, body):
    """What rvld says of an object, for which it finds no entry once it has read all of it: the words of its line."""
    with open('read.o', 'wb') as file:
        file.write(body)
    return subprocess.run([rvld, '-o', 'read.out', '-e', 'not there', 'read.o'], capture_output=True, text=True).stderr.split()


def mended(body, line):
    """The object without the symbol that rvld's line is about: its place in the file is in the line."""
    at = int(next(word for word in line if word.startswith('place=')).split('=')[1])
    if line[1] == 'F17':
        return body[:at + 4] + bytes([body[at + 4] & 0xf0 | FUNC]) + body[at + 5:]
    return body[:at + 8] + bytes(8) + body[at + 16:]


def records(file):
    """The sections of an object that have records, and how many FDEs these have."""
    found = [section for section in file.sections if section.name == '.eh_frame' and section.flags & ALLOC and section.type == PROGBITS and section.size]
    count = 0
    for section in found:
        at = section.offset
        while at < section.offset + section.size and file.data[at:at + 4] != bytes(4):
            count += file.data[at + 4:at + 8] != bytes(4)
            at += 4 + int.from_bytes(file.data[at:at + 4], 'little')
    return found, count


def look(rvld, name, body):
    """The sections with records, their FDEs, and what is wrong."""
    file = File(body)
    found, count = records(file)
    line = line_of(rvld, body)
    for _ in range(100):
        if line[1:2] not in (['F09'], ['F17']):
            break
        body = mended(body, line)
        line = line_of(rvld, body)
    if line[1:2] != ['F21']:
        return len(found), count, '%s: %s' % (name, ' '.join(line))
    for section in found:
        at = section.offset
        if body[at:at + 4] == bytes(4):
            continue                            # the end of the list, as crtend.o has it
        line = line_of(rvld, body[:at] + (section.size - 3).to_bytes(4, 'little') + body[at + 4:])
        if line[1:2] != ['F19'] or 'place=%d' % at not in line:
            return len(found), count, '%s: with a record past its section: %s' % (name, ' '.join(line))
    return len(found), count, None


def main():
    rvld, status = os.path.abspath(sys.argv[1]), 0
    paths = [os.path.abspath(path) for path in sys.argv[2:] if os.path.exists(path)]
    with tempfile.TemporaryDirectory() as folder:
        os.chdir(folder)
        for path in paths:
            with open(path, 'rb') as file:
                data = file.read()
            objects = sections = fdes = 0
            failed = []
            for name, body in members(data) if data.startswith(ARCHIVE) else [(os.path.basename(path), data)]:
                if body.startswith(ELF):
                    objects += 1
                    some, count, wrong = look(rvld, name, body)
                    sections, fdes = sections + some, fdes + count
                    failed += [wrong] if wrong else []
            for wrong in failed:
                print('%s: %s' % (path, wrong))
            if failed:
                status = 1
            else:
                print('OK: %s: %d objects, %d sections with %d FDEs' % (path, objects, sections, fdes), flush=True)
    return status


if __name__ == '__main__':
    sys.exit(main())
