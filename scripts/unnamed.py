#!/usr/bin/env python3
"""Lists lemmas and definitions of specs/ and proofs/ that nothing leads to: no contract or other line of a .rt file, no answer or invariant, no page, and no lemma or
definition to which one of these leads. Imports count nowhere, except in files of answers and invariants.

Names are compared without the module that they stand in: where two modules define the same name, both are taken as named if one is. So what is listed is not named, and
what is not listed may be. A tactic can take a lemma that is only imported: after lines were deleted `rt check` says whether one was needed.
Usage: scripts/unnamed.py [--lines] [CRATE ..]     --lines: the lines of each too. The last line counts. The status is 0.
"""
import argparse
import os
import re

ROOT = os.path.dirname(os.path.dirname(os.path.realpath(__file__)))
HEAD = re.compile(r'^(?P<in> *)(?:(?:abbrev|pub|macro|opaque) )*(?P<kind>record |data )?(?P<name>[^\s(){},;.:=]+)(?: +[({].*)? :(?: |$)')
SPLIT = re.compile(r'[\s:(){}\[\],;"`]+')
IMPORT = re.compile(r'^(?:pub )?use [^\n]*(?:\n[ \t]+[^\n]*)*', re.M)


def words_of(text):
    """Each word of a text, and the parts of those that have points."""
    found = set()
    for word in SPLIT.split(text):
        found.add(word)
        found.update(it for it in word.split('.') if it)
    return found


def parts_of(name):
    """The words by which a name is called: an operator's are those around its holes."""
    return {it for it in name.split('◌') if it}


def blocks_of(text):
    """A file's definitions, each with its first line's number and its text, and the text that belongs to none."""
    found, rest, name, inner, within = [], [], None, None, ''
    for number, line in enumerate(text.split('\n'), 1):
        bare = line.strip()
        depth = len(line) - len(line.lstrip())
        if not bare:
            continue
        if depth == 0:
            within = bare
        # (what is deeper in a record or in data is a field or a constructor)
        is_open = depth == 0 or depth == 2 and within.startswith(('module', 'pub module'))
        head = HEAD.match(line) if is_open else None
        if head and not bare.startswith(('module', 'use ', 'pub use ', 'mod ', 'pub mod ', '#', '--')):
            if head['name'] != name:
                found.append([head['name'], number, []])
            name, inner = head['name'], depth
        elif name is not None and depth <= inner and bare.split()[0] != name and not parts_of(name) & set(bare.split()) and not bare.startswith(('where', '--')):
            name = None
        (found[-1][2] if name is not None else rest).append(line)
    return [(it, number, '\n'.join(lines)) for it, number, lines in found], '\n'.join(rest)


def main():
    reader = argparse.ArgumentParser(description=__doc__, formatter_class=argparse.RawDescriptionHelpFormatter)
    reader.add_argument('crates', nargs='*')
    reader.add_argument('--lines', action='store_true')
    words = reader.parse_args()
    roots, defined = set(), []
    for at, folders, names in os.walk(os.path.join(ROOT, 'crates')):
        folders[:] = sorted(it for it in folders if it not in ('out', 'must-fail'))
        for name in sorted(names):
            path = os.path.join(at, name)
            if not name.endswith(('.rt', '.antt')):
                continue
            with open(path, encoding='utf-8') as file:
                text = file.read()
            if name.endswith('.rt'):
                roots |= words_of(re.sub(r'//[^\n]*', '', text))
            elif name in ('Answers.antt', 'Invariants.antt'):
                roots |= words_of(re.sub(r'--[^\n]*', '', text))
            else:
                blocks, rest = blocks_of(IMPORT.sub(lambda it: '\n' * it[0].count('\n'), re.sub(r'--[^\n]*', '', text)))
                roots |= words_of(rest)
                defined += [(it, os.path.relpath(path, ROOT), number, lines, words_of(lines)) for it, number, lines in blocks]
    for page in ['README.md', *sorted(os.listdir(os.path.join(ROOT, 'docs')))]:
        path = os.path.join(ROOT, page if page == 'README.md' else 'docs/' + page)
        if path.endswith('.md'):
            with open(path, encoding='utf-8') as file:
                roots |= words_of(' '.join(re.findall(r'`[^`\n]+`', file.read())))
    todo, seen, left = [roots], set(roots), defined
    while todo:
        todo.pop()
        reached = [it for it in left if parts_of(it[0]) <= seen]
        left = [it for it in left if not parts_of(it[0]) <= seen]
        for it in reached:
            if it[4] - seen:
                seen |= it[4]
                todo.append(it[4])
    count = 0
    for name, path, number, lines, _ in left:
        if words.crates and path.split('/')[1] not in words.crates:
            continue
        count += 1
        print(f'{path}:{number}: {name}')
        if words.lines:
            print(lines)
    print(f'{count} of {len(defined)} lemmas and definitions are named by nothing')


if __name__ == '__main__':
    main()
