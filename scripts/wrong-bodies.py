#!/usr/bin/env python3
"""Puts wrong bodies into the calls of crates, and lists each that no contract refuses.

`scripts/wrong-bodies/NAME.txt` has the bodies of a crate: after a line `src/FILE.rt: THE SIGNATURE'S BEGINNING` (`#2` after it: the second line of
the file that begins so) each indented line is an early return with a wrong answer, under a test of its own, that stands at the start of the
call's body. `# meant:` before one says why it is let through; `# alone` before one that has no test, so that nothing after it is reached: the second
of these of a call is put into a second copy, and so on. All other lines of a crate are put into a copy of the sources at once, and one `rt check
--allow-holes` lists the goals that stay open by source line: a line is refused if a clause of its call, or an invariant, is among them.
That a goal stays open shows only that the tactics find no proof of it.

`scripts/wrong-bodies/NAME/` has edits of the crate, in the form of those in `crates/NAME/must-fail`, which the gate does not try: `rt must-fail` tries
them on the same copy, each in a check of its own (half a minute of a processor each; three to five minutes in link_driver).

Usage: scripts/wrong-bodies.py [--jobs N] [--in CLONE] [--lists | --edits] [NAME ..]   (no names: all crates that have a list or a folder; --lists and --edits try one of the two alone).
CLONE stands in the place of the copy: a clone of the same text that nothing else uses. What was proved in it is taken over, where kit 13b proves the libraries of a copy from nothing.
The last line is `N refused, M let through`, where those that are meant to be are not counted; the status is 0 if none is. What the checks print is kept
in the folder that is named on stderr.
"""
import os
import re
import shutil
import subprocess
import sys
import tempfile

ROOT = os.path.dirname(os.path.dirname(os.path.realpath(__file__)))
LISTS = os.path.join(ROOT, 'scripts', 'wrong-bodies')


def bodies_in(path):
    """Gives (file, beginning, which) and the bodies, each with whether it is meant to be let through and whether it stands alone, of each call."""
    calls, meant, alone = [], False, False
    with open(path, encoding='utf-8') as lines:
        for line in lines:
            text = line.strip()
            if text.startswith('#'):
                meant = meant or text.startswith('# meant:')
                alone = alone or text == '# alone'
            elif line.startswith('    '):
                calls[-1][1].append((text, meant, alone))
                meant = alone = False
            elif text:
                file, beginning = text.split(': ', 1)
                which = re.search(r' #(\d+)$', beginning)
                calls.append(((file, beginning[: which.start()] if which else beginning, int(which[1]) if which else 1), []))
    return calls


def copies_of(calls):
    """Gives the bodies of each copy, as put_in takes them: those without a test go last, one of a call into each copy."""
    alone = [(call, [body[:2] for body in bodies if body[2]]) for call, bodies in calls]
    for n in range(max(1, max(len(bodies) for _, bodies in alone))):
        yield [(call, [body[:2] for body in bodies if not body[2] and n == 0] + own[n : n + 1]) for (call, bodies), (_, own) in zip(calls, alone)]


def put_in(folder, calls):
    """Puts the bodies into a crate's sources and gives, by file and line number, the call and the body that stands there."""
    texts, places = {}, {}
    for (file, beginning, which), bodies in calls:
        lines = texts.get(file)
        if lines is None:
            with open(os.path.join(folder, file), encoding='utf-8') as it:
                lines = texts[file] = [(line, None) for line in it.read().split('\n')]
        at = [n for n, (line, own) in enumerate(lines) if own is None and line.strip().startswith(beginning)]
        if len(at) < which:
            sys.exit(f'{folder}/{file} has no line {which} that begins: {beginning}')
        n = at[which - 1]
        while not lines[n][0].rstrip().endswith('{'):
            n += 1
        space = re.match(' *', lines[n][0])[0] + '    '
        lines[n + 1 : n + 1] = [(space + body, (beginning, body, meant)) for body, meant in bodies]
    for file, lines in texts.items():
        with open(os.path.join(folder, file), 'w', encoding='utf-8') as it:
            it.write('\n'.join(line for line, _ in lines))
        places.update({(file, n): own for n, (_, own) in enumerate(lines, 1) if own})
    return places


def open_goals(said):
    """Gives what a check says of each source line."""
    notes, place = {}, None
    for line in said.splitlines():
        found = re.match(r'(?:\w+: )?(src/[^:]+):(\d+):\d+: (.*)', line)
        if found:
            notes.setdefault((found[1], int(found[2])), []).append(found[3])
        # (a goal at which the tactics met a limit stands among the holes alone, after its place)
        found = re.match(r'\s+-- (src/[^:]+):(\d+):\d+$', line)
        place = (found[1], int(found[2])) if found else place
        if place and re.match(r'\s+pub (returns|invariant_of)', line):
            notes.setdefault(place, []).append('a clause that the function ensures holds: a hole')
    return notes


def judge(name, tree, top, jobs):
    """Gives how many bodies of a crate are refused, and how many are let through that are not meant to be."""
    folder = os.path.join(tree, 'crates', name)
    total, refused, through = 0, 0, 0
    for n, calls in enumerate(copies_of(bodies_in(os.path.join(LISTS, f'{name}.txt'))), 1):
        places = put_in(folder, calls)
        said = subprocess.run(['rt', 'check', '--allow-holes', '--jobs', jobs], cwd=folder, stdin=subprocess.DEVNULL, stdout=subprocess.PIPE, stderr=subprocess.STDOUT, text=True).stdout
        with open(os.path.join(top, f'{name}.{n}.out'), 'w', encoding='utf-8') as it:
            it.write(said)
        if 'functions=' not in said and 'no hole is left' not in said and 'holes' not in said:
            sys.exit(f'{name}: the check did not come to its goals: {said[-2000:]}')
        notes = open_goals(said)
        for place, (call, body, meant) in sorted(places.items()):
            is_refused = any('ensures holds' in it or 'invariant' in it for it in notes.get(place, []))
            refused += is_refused
            if not is_refused:
                through += not meant
                why = 'only a callee asks for more' if place in notes else 'let through'
                print(f"{name}: {why}{', as it is meant to be' if meant else ''}: {place[0]}: {call}\n    {body}")
        total += len(places)
        shutil.rmtree(os.path.join(folder, 'src'))
        shutil.copytree(os.path.join(ROOT, 'crates', name, 'src'), os.path.join(folder, 'src'))
    print(f'{name}: {refused} of {total} refused', flush=True)
    return refused, through


def judge_edits(name, tree, top):
    """Gives how many edits of a crate are refused, and how many are not or could not be tried."""
    own, gates = os.path.join(LISTS, name), os.path.join(ROOT, 'crates', name, 'must-fail')
    edits = sorted(it for it in os.listdir(own) if it.endswith('.edit'))
    tried = os.path.join(tree, 'crates', name, 'must-fail')
    shutil.rmtree(tried, ignore_errors=True)
    shutil.copytree(own, tried)
    said = subprocess.run(['rt', 'must-fail', name], cwd=tree, stdin=subprocess.DEVNULL, stdout=subprocess.PIPE, stderr=subprocess.STDOUT, text=True).stdout
    shutil.rmtree(tried)
    if os.path.isdir(gates):
        shutil.copytree(gates, tried)
    with open(os.path.join(top, f'{name}.edits.out'), 'w', encoding='utf-8') as it:
        it.write(said)
    # (a refusal that stands on a name that is gone shows nothing of a contract)
    refused = {it for it in edits if re.search(rf'must-fail {name}/{re.escape(it)}: refused, as it must be(?! \(only because)', said)}
    for it in edits:
        if it not in refused:
            line = next((line for line in said.splitlines() if f'{name}/{it}:' in line), 'not tried')
            print(f'{name}: {line}')
    print(f'{name}: {len(refused)} of {len(edits)} edits refused', flush=True)
    return len(refused), len(edits) - len(refused)


def main():
    words = sys.argv[1:]
    jobs, parts = '2', ['--lists', '--edits']
    if words[:1] == ['--jobs']:
        jobs, words = words[1], words[2:]
    clone = None
    if words[:1] == ['--in']:
        clone, words = os.path.realpath(words[1]), words[2:]
    if words[:1] in (['--lists'], ['--edits']):
        parts, words = words[:1], words[1:]
    lists = [it[:-4] for it in os.listdir(LISTS) if it.endswith('.txt')] if '--lists' in parts else []
    edits = [it for it in os.listdir(LISTS) if os.path.isdir(os.path.join(LISTS, it))] if '--edits' in parts else []
    names = words or sorted({*lists, *edits})
    lacking = [it for it in names if it not in lists and it not in edits]
    if lacking:
        sys.exit(f'scripts/wrong-bodies has nothing of that kind for {lacking[0]}')
    top = tempfile.mkdtemp(prefix='wrong-bodies-')
    print(f'in {top}', file=sys.stderr)
    if not clone:
        for it in ('crates.txt', 'HANDLES'):
            shutil.copy(os.path.join(ROOT, it), top)
        shutil.copytree(os.path.join(ROOT, 'crates'), os.path.join(top, 'crates'), ignore=shutil.ignore_patterns('out'))
    tree = clone or top
    try:
        found = [judge(it, tree, top, jobs) for it in names if it in lists] + [judge_edits(it, tree, top) for it in names if it in edits]
    finally:
        if not clone:
            shutil.rmtree(os.path.join(top, 'crates'))
    through = sum(it for _, it in found)
    print(f'{sum(it for it, _ in found)} refused, {through} let through')
    return 1 if through else 0


if __name__ == '__main__':
    sys.exit(main())
