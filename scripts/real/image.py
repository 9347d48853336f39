#!/usr/bin/env python3
"""Writes the memory image of an executable from 0x10000 on, and says where its entry is in the image.

Of what rvld writes the image is the file itself, since each byte stands at its address less 0x10000; other linkers' files have other offsets.
Usage: image.py EXECUTABLE IMAGE     writes `IMAGE-OFFSET-OF-ENTRY` in hexadecimal to the standard output
"""
import os
import sys

sys.path.insert(0, os.path.dirname(os.path.dirname(os.path.realpath(__file__))))
from elf.read import file_at

BASE = 0x10000


def main():
    executable, image = file_at(sys.argv[1]), bytearray()
    for load in executable.loads():
        at = load.address - BASE
        image.extend(bytes(max(0, at + load.size - len(image))))
        image[at:at + load.size] = executable.data[load.offset:load.offset + load.size]
    with open(sys.argv[2], 'wb') as file:
        file.write(image)
    print('%x' % (executable.entry - BASE))


if __name__ == '__main__':
    main()
