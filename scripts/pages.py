#!/usr/bin/env python3
"""Checks that each file of the repository that a page names is there, and each heading; and that each command of the pages is run by a script.

A page is README.md, scripts/README.md, one of docs/ or of samples/. What it names stands in backticks: a path from the top, from the page's own folder or
from crates/ on, and a name alone, as `marks.rt`, or a path within a crate, as `specs/Rule.antt`, which any crate may have. `*`, `..` and words in capitals
stand for anything. A title in double quotes after the name of another page has to be a heading there. Fenced and indented lines are left out.

The commands are those of README.md, docs/guide.md and scripts/README.md, and each program that scripts/ has. What stands in a block fenced as `sh` is run by
`scripts/test commands`. What is indented, or stands in backticks and begins with a script or a tool, has to be among the words of such a block, of a part of
scripts/test, or of a script that one of these runs; else it is in the table of scripts/README.md, "Commands that no script runs", with the reason.
Usage: scripts/pages.py        a line for each name that is nowhere, and each command that nothing runs; the last line is `N passed, M failed`, and the status is
                               1 where M is not 0
"""
import fnmatch
import os
import re
import subprocess
import sys

TOP = os.path.dirname(os.path.dirname(os.path.realpath(__file__)))
LIKE_A_FILE = re.compile(r'[\w*./-]+\.(rt|antt|edit|md|py|sh|txt|toml)|(crates|docs|samples|scripts|\.ci)/[\w*./-]+|[\w-]+/|[a-z_]+/(src|specs|proofs|must-fail|data)\b[\w*./-]*')
MADE = re.compile(r'(^|/)out(/|$)')  # what a build makes
HEADING = re.compile(r'`((?:[a-z]+/)?[A-Za-z]+\.md)`, "([^"]+)"')
PAGE = re.compile(r'((docs|samples)/[\w/]+|README|scripts/README)\.md')
COMMANDED = ('README.md', 'docs/guide.md', 'scripts/README.md')    # those whose commands are looked for
RUN = ('README.md', 'docs/guide.md', 'docs/rules.md')              # those whose fenced blocks `scripts/test commands` runs
NOT_RUN = 'Commands that no script runs'
TOOL = re.compile(r'(rt|apt) |(rvld|rvld-ld|riscv64-[\w-]+|qemu-[\w-]+) .*(-[a-z]|\.[oac])\b')


def listed(*words):
    return subprocess.run(['git', 'ls-files', *words], cwd=TOP, capture_output=True, text=True, check=True).stdout.split('\n')[:-1]


def files_and_folders():
    found = set(listed('-co', '--exclude-standard'))
    for path in list(found):
        while '/' in path:
            path = os.path.dirname(path)
            found.add(path)
    return found


def named(line):
    """The files that a line of a page names: the first word between backticks, since options may stand after it."""
    for words in re.findall(r'`([^`]+)`', line):
        word = words.split(' ')[0]
        if LIKE_A_FILE.fullmatch(word) and not MADE.search(word):
            yield word.rstrip('/')


def is_there(name, page, paths, ends):
    if name in ends or os.path.normpath(os.path.join(os.path.dirname(page), name)) in paths:
        return True
    pattern = re.sub(r'[A-Z]{2,}', '*', name).replace('..', '*')
    return '*' in pattern and any(fnmatch.fnmatch(end, pattern) for end in ends)


def lines_of(text):
    """Number, line and whether it is fenced, of each line but the fences."""
    fence = None
    for number, line in enumerate(text.split('\n'), 1):
        if line.startswith('```'):
            fence = line[3:].strip() if fence is None else None
        else:
            yield number, line, fence


def names_checked(texts, paths):
    """What is looked for on each page: (page, number of the line, what, whether it is there)."""
    ends = {'/'.join(path.split('/')[k:]) for path in paths for k in range(path.count('/') + 1)}
    for page, text in texts.items():
        for number, line, fence in lines_of(text):
            if fence is not None or line.startswith('    '):
                continue
            for name in named(line):
                yield page, number, name, is_there(name, page, paths, ends)
            for other, heading in HEADING.findall(line):
                is_good = other in texts and re.search('^##+ %s$' % re.escape(heading), texts[other], re.M) is not None
                yield page, number, '%s, "%s"' % (other, heading), is_good


def commands_of(text, programs):
    """The commands of a page outside of its fenced blocks, each with the number of its line; those of its table of what is not run, apart."""
    found, not_run, heading = [], [], ''
    for number, line, fence in lines_of(text):
        if fence is not None:
            continue
        if line.startswith('#'):
            heading = line.strip('# ')
        spans = [line.split(' # ')[0].strip()] if line.startswith('    ') else re.findall(r'`([^`]+)`', line)
        commands = [span for span in spans if '[' not in span and (span.split()[0] in programs or TOOL.match(span))]
        if heading == NOT_RUN:
            not_run += [(number, command) for command in commands[:1] if line.startswith('|')]
        else:
            found += [(number, command) for command in commands]
    return found, not_run


def stands_in(command, line):
    """Whether the words of a command stand side by side in a line; a word in capitals stands for any."""
    some = [r'\S+' if re.fullmatch(r'[A-Z]{2,}', word) else re.escape(word) for word in command.split()]
    return re.search(r'(?<![\w./-])%s(?![\w./-])' % r'\s+'.join(some), line) is not None


def lines_run(texts, programs):
    """The lines that scripts run: of fenced blocks, of the parts of scripts/test, and of each program that one of these lines names. And these programs."""
    lines = [line for page in RUN for _, line, fence in lines_of(texts[page]) if fence == 'sh']
    parts = subprocess.run('scripts/test --list', shell=True, cwd=TOP, capture_output=True, text=True, check=True).stdout.split('\n')[1:-1]
    lines += ['scripts/test ' + part.split()[0] for part in parts] + ['scripts/' + part.split(None, 3)[3] for part in parts]
    begun, left = {'.ci/run'}, ['.ci/run']
    while left:
        with open(os.path.join(TOP, left.pop())) as file:
            code = re.sub(r'\A(#!.*\n)?""".*?"""', '', file.read(), flags=re.S)
        lines += [line for line in code.split('\n') if not line.lstrip().startswith('#')]
        text = '\n'.join(lines)
        new = [it for it in programs if it not in begun and re.search(r'(/|\b)%s(?![\w.-])|/%s\b' % tuple(
            map(re.escape, (it.removeprefix('scripts/'), os.path.basename(it)))), text)]
        begun.update(new)
        left += new
    return lines, begun


def commands_checked(texts):
    """The same for commands."""
    programs = {row.split('\t')[1] for row in listed('-s', 'scripts', '.ci') if row.startswith('100755')}
    lines, begun = lines_run(texts, programs.union(listed('scripts/*.sh')))     # others that end so are parts of these
    own = {page: commands_of(texts[page], programs) for page in COMMANDED}
    not_run = own['scripts/README.md'][1]
    asked = [(page, number, command) for page, (found, _) in own.items() for number, command in found] + [('scripts', 0, it) for it in sorted(programs)]
    for page, number, command in asked:
        is_run = command in begun or any(stands_in(command, line) for line in lines)
        yield page, number, 'script that runs `%s`' % command, is_run or command in (it for _, it in not_run)
    for number, command in not_run:
        yield 'scripts/README.md', number, 'command `%s` that no script runs' % command, any(command == it for _, _, it in asked)


def main():
    paths = files_and_folders()
    texts = {}
    for page in sorted(filter(PAGE.fullmatch, paths)):
        with open(os.path.join(TOP, page)) as file:
            texts[page] = file.read()
    passed = failed = 0
    for page, number, what, is_good in [*names_checked(texts, paths), *commands_checked(texts)]:
        passed, failed = passed + is_good, failed + (not is_good)
        if not is_good:
            print('%s:%d: there is no %s' % (page, number, what))
    print('%d passed, %d failed' % (passed, failed))
    return 1 if failed else 0


if __name__ == '__main__':
    sys.exit(main())
