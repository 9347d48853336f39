#!/usr/bin/env python3
"""Runs the commands of a page: each block fenced as `sh`, in one shell for each section (`## ..`), in the folder that is named.

A block fenced as `text` right after one of `sh` is what that block has to write. A command that fails is a fault, unless the block itself
deals with it. A section whose tools or variables are not there is skipped, and with --without=WORD one whose commands have the word.
With --not-its-lines texts that show lines or maps of rvld's are not compared; with --refusals a command `rvld ..` may fail; with
--places-differ the sections and places in its lines are not compared.
Writes a line for each section: `OK: SECTION`, `skipped: SECTION: WHAT is not there`, or `SECTION: what is wrong`.
Usage: scripts/tests/commands.py PAGE FOLDER [--not-its-lines] [--refusals] [--places-differ] [--without=WORD]    real-programs.sh has the pages and folders
"""
import os
import re
import shutil
import signal
import subprocess
import sys

TOOL = re.compile(r'(?:^|[|;(]\s*|\$\()((?:riscv64-[a-z0-9-]+-|llvm-)[a-z+]+|clang(?:\+\+)?|qemu-(?:system-)?riscv64|gdb-multiarch|rvld(?:-ld|_piped)?|cmp|make|autoconf|cmake|meson)(?![\w+])', re.M)
ITS_LINES = re.compile(r'^(rvld[: ]|rvld-ld: cannot run|status )', re.M)

LIMIT = 3000 if os.environ.get('REAL_ONCE') else 300  # seconds that a section may take
PLACES = re.compile(r'(?<= section=)[0-9]+|(?<= place=)[0-9]+')


class Section:
    def __init__(self, name):
        self.name = name
        self.blocks = []  # [commands, what they write or None]


def sections_of(lines):
    found, block, kind, after = [Section('Start')], None, '', False
    for line in lines:
        if block is not None:
            if line.startswith('```'):
                if kind == 'sh':
                    found[-1].blocks.append([block, None])
                elif kind == 'text' and after:
                    found[-1].blocks[-1][1] = block
                after, block = kind == 'sh', None
            else:
                block += line
        elif line.startswith('```'):
            block, kind = '', line[3:].strip()
        elif line.startswith('## '):
            found.append(Section(line[3:].strip()))
            after = False
        elif line.strip():
            after = False
    return [section for section in found if section.blocks]


def missing(section, options):
    """What of the section is not there, or None."""
    text = '\n'.join(commands for commands, _ in section.blocks)
    for option in options:
        kind, _, word = option.partition('=')
        if kind == '--without' and word in text.split():
            return word
    for tool in TOOL.findall(text):
        if shutil.which(tool) is None:
            return tool
    for variable in re.findall(r'\$\{?(MUSL\w*)', text):
        if variable not in os.environ:
            return 'the variable ' + variable
    if 'picolibc' in text and subprocess.run(['riscv64-unknown-elf-gcc', '--specs=picolibc.specs', '-E', '-x', 'c', os.devnull],
                                                   capture_output=True).returncode != 0:
        return 'picolibc'
    return None


def run(section, folder, options):
    """What is wrong with the section, or None."""
    ignored = ' [[ $BASH_COMMAND == "rvld "* ]] ||' if '--refusals' in options else ''
    script = ["trap '%s echo \"$BASH_COMMAND\" >>.failed' ERR\n: >.failed\n" % ignored]
    for number, (commands, _) in enumerate(section.blocks):
        script.append('{\n%s} >.said.%d 2>&1\n' % (commands, number))
    shell = subprocess.Popen(['bash', '-c', ''.join(script)], cwd=folder, stdin=subprocess.DEVNULL, start_new_session=True)
    try:
        shell.wait(LIMIT)
    except subprocess.TimeoutExpired:
        os.killpg(shell.pid, signal.SIGKILL)
        shell.wait()
        return 'it does not end in %d seconds' % LIMIT
    for number, (commands, wanted) in enumerate(section.blocks):
        path = os.path.join(folder, '.said.%d' % number)
        if not os.path.exists(path):
            return 'its shell ended before block %d' % (number + 1)
        with open(path, errors='replace') as file:
            said = file.read()
        os.remove(path)
        if wanted is None or '--not-its-lines' in options and ITS_LINES.search(wanted):
            continue
        if said != wanted and not ('--places-differ' in options and PLACES.sub('', said) == PLACES.sub('', wanted)):
            return 'block %d writes %r, not %r' % (number + 1, said[:400], wanted[:400])
    with open(os.path.join(folder, '.failed')) as file:
        failed = file.read().strip()
    return 'this fails: %s' % failed.split('\n')[0] if failed else None


def main():
    page, folder, options = sys.argv[1], sys.argv[2], sys.argv[3:]
    with open(page) as file:
        sections = sections_of(file)
    for section in sections:
        what = missing(section, options)
        if what is not None:
            print('skipped: %s: %s is not there' % (section.name, what), flush=True)
            continue
        wrong = run(section, folder, options)
        print('OK: %s' % section.name if wrong is None else '%s: %s' % (section.name, wrong), flush=True)


if __name__ == '__main__':
    main()
