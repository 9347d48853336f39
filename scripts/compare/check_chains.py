#!/usr/bin/env python3
"""Whether the texts of --why-live and --why-apart are right, by docs/formats.md: each step is tested, and that no other list comes before.

Usage: scripts/compare/check_chains.py TEXT WORD..: TEXT has what rvld printed for these words (without --self-input)

The sections that a section leads to, and what may be folded, are read by compare/reference_link.py; the shortest lists are found from their ends.
"""
import os
import sys

sys.path.insert(0, os.path.dirname(os.path.dirname(os.path.realpath(__file__))))
from compare.reference_link import ARRAYS, FRAMES_START, escaped, link, read_command, set_of
from elf.constants import *


def roots_of(done):
    """The sections that are kept by themselves (docs/formats.md, "What is kept")."""
    start = done.entry_spot()
    found = done.sections_named(done.asked) | ({start[1]} if start[0] == 'section' else set())
    for key, (name, flags, sort, _, _) in done.sections.items():
        if sort == NOTE or sort in ARRAYS or name in (b'.init', b'.fini') or flags & RETAIN:
            found.add(key)
    return found & set(done.sections)


def leads_of(done):
    """Of each section those to which it leads."""
    leads, named = {key: set() for key in done.sections}, {}
    for key, section in done.sections.items():
        named.setdefault(section[0], set()).add(key)
    for n in done.live:
        file = done.files[n]
        for i, s in enumerate(file.sections):
            if s.flags & LINK_ORDER and s.link and (n, s.link) in leads:
                leads[n, s.link].add((n, i))
        for _, _, _, group in file.groups:
            for i in group:
                leads.get((n, i), set()).update((n, k) for k in group)
    for key, ends in leads.items():
        for _, kind, index, addend in done.relocs(key):
            spot = UNSET if kind in (R_RELAX, R_ALIGN) else done.spot(key[0], index, kind, addend)
            if spot[0] == 'section':
                ends.add(spot[1])
            elif spot[0] == 'linker' and spot != FRAMES_START and set_of(spot[1]) is not None:
                ends |= named.get(set_of(spot[1]), set())
        for n, _, relocs in done.frame_relocs(key):
            for _, kind, index, addend in relocs:
                spot = UNSET if kind == R_RELAX else done.spot(n, index, kind, addend)
                if spot[0] == 'section':
                    ends.add(spot[1])
        ends &= set(done.sections)
    return leads


UNSET = (None,)


def far(ends, into):
    """How many steps each is away from the nearest end; `into` gives for each those that have it as their next."""
    steps, last = dict.fromkeys(ends, 0), list(ends)
    while last:
        more = {one for end in last for one in into.get(end, ()) if one not in steps}
        steps.update((one, steps[last[0]] + 1) for one in more)
        last = list(more)
    return steps


def back(leads):
    into = {}
    for one, ends in leads.items():
        for end in ends:
            into.setdefault(end, set()).add(one)
    return into


def place(done, key):
    return '%s %d' % (done.files[key[0]].shown, key[1])


def section_of(done, name):
    return next(iter(done.sections_named([name])), None)


def live_text(done, name):
    target = section_of(done, name)
    if target is None:
        return ['unknown ' + escaped(name)]
    leads = leads_of(done)
    steps = far([target], back(leads))
    roots = [key for key in roots_of(done) if key in steps]
    if not roots:
        return ['dead ' + escaped(name)]
    at, word, lines = min(roots, key=lambda key: (steps[key], key)), 'root', ['live ' + escaped(name)]
    while True:
        lines.append('%s %s %s' % (word, place(done, at), escaped(done.sections[at][0])))
        if at == target:
            return lines
        at, word = min(key for key in leads[at] if steps.get(key) == steps[at] - 1), 'to'


class Pairs:
    """Pairs of sections that may be folded, and where their relocations lead."""

    def __init__(self, done, apart):
        self.keys, self.targets = done.foldable(apart)

    def next(self, pair, k):
        """The pair to which relocation k of both leads."""
        t, u = (self.targets[key][k] if k < len(self.targets[key]) else None for key in pair)
        if t and u and t[0] == u[0] == 'section' and t[1] in self.keys and u[1] in self.keys and t[2:] == u[2:]:
            return t[1], u[1]

    def end(self, pair):
        """How the two of a pair differ whatever is folded, or None."""
        if self.keys[pair[0]] != self.keys[pair[1]]:
            return 'key'
        for k, (t, u) in enumerate(zip(self.targets[pair[0]], self.targets[pair[1]])):
            if t != u and not self.next(pair, k):
                return 'target %d' % k

    def all_from(self, pair):
        """Each pair that is met from one, and where it leads by which relocation."""
        found, queue = {}, [pair]
        while queue:
            one = queue.pop()
            if one not in found:
                count = 0 if self.end(one) else len(self.targets[one[0]])
                found[one] = {k: self.next(one, k) for k in range(count) if self.next(one, k)}
                queue += found[one].values()
        return found


def apart_text(done, names, apart):
    sections = []
    for name in names:
        sections.append(section_of(done, name))
        if sections[-1] is None:
            return ['unknown ' + escaped(name)]
    pairs = Pairs(done, apart)
    for name, key in zip(names, sections):
        if key not in pairs.keys:
            return ['unfoldable ' + escaped(name)]
    shown = ' '.join(escaped(name) for name in names)
    at = tuple(sections)
    found = pairs.all_from(at)
    steps = far([pair for pair in found if pairs.end(pair)], back({one: set(to.values()) for one, to in found.items()}))
    done.leader = {key: key for key in done.kept}
    done.fold(apart)
    if (at in steps) == (done.leader[at[0]] == done.leader[at[1]]):
        raise AssertionError('folded and apart')
    if at not in steps:
        return ['same ' + shown]
    lines, word = ['apart ' + shown], 'pair'
    while True:
        lines.append('%s %s %s' % (word, place(done, at[0]), place(done, at[1])))
        if steps[at] == 0:
            return lines + ['differ ' + pairs.end(at)]
        k = min(k for k, to in found[at].items() if steps.get(to) == steps[at] - 1)
        at, word = found[at][k], 'via %d pair' % k


def texts(done, live, apart):
    """The lines for the names of --why-live and --why-apart, each None where it is not asked for."""
    lines = [] if live is None else live_text(done, live)
    if apart is not None:
        unique = done.sections_named(done.unique)
        lines += apart_text(done, apart, unique | (done.address_taken() if done.icf == 'safe' else set()))
    return lines


def split(words):
    """The words but for what is asked why, and the names for which it is asked, each None where it is not."""
    rest, asked = [], {}
    words = iter(words)
    for word in words:
        option, equals, value = word.partition('=')
        if option in ('--why-live', '--why-apart'):
            asked[option] = (value if equals else next(words)).encode()
        else:
            rest.append(word)
    apart = asked.get('--why-apart')
    return rest, asked.get('--why-live'), None if apart is None else apart.split(b',')


def main():
    words, live, apart = split(sys.argv[2:])
    _, inputs, more = read_command(words)
    status, found, done = link(inputs, **more)
    if status:
        sys.exit(found)
    wanted = texts(done, live, apart)
    with open(sys.argv[1], encoding='ascii') as file:
        lines = file.read().splitlines()
    if lines != wanted:
        print('\n'.join(['is:'] + lines + ['is to be:'] + wanted))
    return lines != wanted


if __name__ == '__main__':
    sys.exit(main())
