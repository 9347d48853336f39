#!/usr/bin/env python3
"""Links inputs of scripts/speed.py by two rvld programs, with several options and numbers of workers, and compares all that they give: status, lines, map and executable.

Usage: scripts/compare/programs.py BEFORE NOW [MODE ..] [--threads 1,2,4,64] [--small] [--keep DIR]

BEFORE links with one worker, NOW with each number of workers. Without a MODE: objects, symbols, sections, archive, strings, string, names, groups, functions, shapes, chain,
lists, files, relaxed; of each the largest size that speed.py has, or a hundredth of it with --small. With --keep the inputs stay in DIR, as with speed.py.
The status is 1 where a link differs."""
import argparse
import hashlib
import os
import shutil
import subprocess
import sys
import tempfile

sys.path.insert(0, os.path.join(os.path.dirname(os.path.realpath(__file__)), '..'))
import speed

OPTIONS = ([], ['-s', '--no-relax'], ['--gc-sections', '--icf=all'], ['--icf=safe', '-s'])
USUAL = 'objects symbols sections archive strings string names groups functions shapes chain lists files relaxed'.split()


def all_of(program, words, files, folder):
    """The status, the lines, and the digests of the executable and the map of a link."""
    left = [os.path.join(folder, name) for name in ('executable', 'map')]
    for file in left:
        if os.path.exists(file):
            os.remove(file)
    ran = subprocess.run([program] + words + ['--Map', left[1], '-o', left[0]] + files, capture_output=True)
    digests = []
    for file in left:
        if os.path.exists(file):
            with open(file, 'rb') as bytes_of:
                digests.append(hashlib.sha256(bytes_of.read()).hexdigest())
        else:
            digests.append(None)
    return ran.returncode, ran.stdout, ran.stderr, digests


def main():
    reader = argparse.ArgumentParser(usage=__doc__)
    reader.add_argument('before')
    reader.add_argument('now')
    reader.add_argument('modes', nargs='*', metavar='MODE')
    reader.add_argument('--threads', default='1,2,4,64')
    reader.add_argument('--small', action='store_true')
    reader.add_argument('--keep')
    words = reader.parse_args()
    before, now = os.path.abspath(words.before), os.path.abspath(words.now)
    folder = words.keep or tempfile.mkdtemp()
    os.makedirs(folder, exist_ok=True)
    passed = failed = 0
    try:
        for mode in words.modes or USUAL:
            make, _, sizes, *_ = speed.MODES[mode]
            size = max(sizes[-1] // 100, 1) if words.small else sizes[-1]
            files = speed.made_apart(words.keep and os.path.join(folder, '%s-%d.files' % (mode, size)), make, folder, size)
            for options in OPTIONS:
                wanted = all_of(before, options + ['--threads', '1'], files, folder)
                for threads in words.threads.split(','):
                    if all_of(now, options + ['--threads', threads], files, folder) == wanted:
                        passed += 1
                    else:
                        failed += 1
                        print('differs: %s %d, %s with %s workers' % (mode, size, ' '.join(options) or 'no options', threads), flush=True)
    finally:
        if not words.keep:
            shutil.rmtree(folder)
    print('%d passed, %d failed' % (passed, failed))
    sys.exit(1 if failed else 0)


if __name__ == '__main__':
    main()
