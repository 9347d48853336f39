#!/usr/bin/env python3
"""Finds what stands twice in the crates: statements of lemmas, definitions, and functions, that are equal but for the names that they bind.

A statement is a name in a file of proofs/ with a type that says a fact, below the heads of the modules that it stands in; two are equal where one is the
other with its variables renamed. A definition is a name in a file of specs/ or proofs/ with its type and its equations, or a record with its fields: its own
name and those of its variables don't count. A function is its signature's types and its body; comments, clauses and layout don't count.
Usage: scripts/twice.py [--most N] [--least N] [CRATE ..]     --most: groups that are shown of each kind (10); --least: words of a statement or a body from which
on it counts (16). The last line counts groups and the copies that are too many. The status is 0.
"""
import argparse
import collections
import os
import re

ROOT = os.path.dirname(os.path.dirname(os.path.realpath(__file__)))
TOKEN = re.compile(r"[A-Za-z_][\w'\-]*(?:\.[A-Za-z_][\w'\-]*)*|\d\w*|\"[^\"\n]*\"|\S")
FACTS = {'≡', '≤', '<', '⊥', '⊎', '×'}    # one of which a type has that says a fact
CONSTRUCTORS = {'true', 'false', 'zero', 'suc', 'pos', 'inl', 'inr', 'tt', 'refl', 'record'}    # that begin with a small letter, and are no variables
WORD = re.compile(r"^[A-Za-z_][\w'\-]*$")


def files_of(crates, folders, ending):
    for crate in crates:
        for folder in folders:
            for at, _, names in os.walk(os.path.join(ROOT, 'crates', crate, folder)):
                for name in sorted(names):
                    if name.endswith(ending) and name not in ('Lib.antt', 'Answers.antt', 'Invariants.antt'):
                        path = os.path.join(at, name)
                        with open(path, encoding='utf-8') as text:
                            yield os.path.relpath(path, ROOT), text.read()


def renamed(tokens, bound):
    """The tokens with each bound name as the number of its first appearance."""
    numbers = {}
    return tuple(f'#{numbers.setdefault(token, len(numbers))}' if token.split('.')[0] in bound and '.' not in token else
                 f"#{numbers.setdefault(token.split('.')[0], len(numbers))}.{token.split('.', 1)[1]}" if token.split('.')[0] in bound else token
                 for token in tokens)


def bound_in(tokens):
    """The names that a type binds: those before the colon in (a b : T) or {a : T}, and those between a lambda and its point."""
    bound, i = set(), 0
    for i, token in enumerate(tokens):
        if token in '({':
            names = []
            for other in tokens[i + 1:]:
                if other == ':' and names:
                    bound.update(names)
                    break
                if not WORD.match(other):
                    break
                names.append(other)
        elif token == 'λ':
            for other in tokens[i + 1:]:
                if WORD.match(other):
                    bound.add(other)
                elif other == '.':
                    break
                elif other.endswith('.') and WORD.match(other[:-1]):
                    bound.add(other[:-1])
                    break
    return bound


def statements(text):
    """Yields (line, name, tokens) of each name with a type, the heads of its modules before it."""
    lines = text.split('\n')
    heads, i = [], 0
    while i < len(lines):
        line = lines[i]
        body = line.lstrip()
        indent = len(line) - len(body)
        if body and not body.startswith('--'):
            heads = [(at, head) for at, head in heads if at < indent]
        found = re.match(r"(?:pub )?(?:unfoldable )?(?:abbrev )?(?:pub )?([A-Za-z_][\w'\-]*) : ", body)
        module = re.match(r'module _ (.*) where$', body)
        if module:
            heads.append((indent, module[1]))
        elif found and 'where' not in body.split() and not re.match(r'\s*(record|data|use)\b', body) and not body.startswith('let '):
            parts = [body[found.end():]]
            j = i + 1
            while j < len(lines) and lines[j].strip() and len(lines[j]) - len(lines[j].lstrip()) > indent and not re.match(r"\s*(unfolding|rewriting|where)\b", lines[j]):
                parts.append(lines[j].strip())
                j += 1
            name = found[1]
            # (what follows has to be the name's own equation; else it is a field or a constructor)
            after = next((it for it in lines[j:j + 2] if it.strip() and not it.strip().startswith('unfolding')), '')
            if after.strip().startswith(name):
                yield i + 1, name, TOKEN.findall(' '.join([head for _, head in heads] + ['⊢'] + parts))
            i = j
            continue
        i += 1


def split_binders(tokens):
    """A type without the names that it binds: (a b : T) → U as T → T → U."""
    out, i = [], 0
    while i < len(tokens):
        if tokens[i] == '(':
            names = []
            while i + 1 + len(names) < len(tokens) and WORD.match(tokens[i + 1 + len(names)]):
                names.append(tokens[i + 1 + len(names)])
            start = i + 1 + len(names)
            if names and tokens[start:start + 1] == [':']:
                end, depth = start + 1, 1
                while end < len(tokens) and depth:
                    depth += (tokens[end] in '({') - (tokens[end] in ')}')
                    end += 1
                inner = split_binders(tokens[start + 1:end - 1])
                inner = ['(', *inner, ')'] if '→' in inner else inner
                for k in range(len(names)):
                    out += inner + ['→'] * (k + 1 < len(names))
                i = end
                continue
        out.append(tokens[i])
        i += 1
    return out


def origins(path, text):
    """Where the types of a file come from: of each name with a capital letter that it imports of a crate, or has itself, the module and the name there."""
    found = {name: f'{path}.{name}' for name in re.findall(r"^\s*(?:pub )?(?:unfoldable )?(?:abbrev )?(?:pub )?(?:record |data )?([A-Z][\w'\-]*) (?=[:({])", text, re.M)}
    for module, names in re.findall(r'^\s*(?:pub |unfoldable )*use Rattle\.(?!std\.)([\w.]+)\.\{([^}]*)\}', text, re.M):
        for name in names.split(','):
            there, _, here = name.strip().partition(' as ')
            if re.match('[A-Z]', here or there):
                found[here or there] = f'{module}.{there}'
    return found


def definitions(path, text):
    """Yields (line, name, tokens) of each name with its type and its equations, and of each record with its fields; the heads of its modules before it."""
    lines = text.split('\n')
    known = origins(path, text)
    heads, i = [], 0
    while i < len(lines):
        line = lines[i]
        body = line.lstrip()
        indent = len(line) - len(body)
        if body and not body.startswith('--'):
            heads = [(at, head) for at, head in heads if at < indent]
        found = re.match(r"(?:pub )?(record|abbrev|unfoldable) (?:abbrev )?(?:pub )?([A-Za-z_][\w'\-]*) (?=[:({])", body)
        module = re.match(r'module _ (.*) where$', body)
        if module:
            heads.append((indent, module[1]))
        if not found:
            i += 1
            continue
        name, start, of_record = found[2], i, found[1] == 'record'
        says, equations = [body[found.end():]], []
        i += 1
        while i < len(lines) and len(lines[i]) - len(lines[i].lstrip()) > indent:
            if not lines[i].strip().startswith('--'):
                says.append(re.sub(r'^pub ', '', lines[i].strip()))
            i += 1
        while not of_record and i < len(lines):
            under = lines[i].strip() and len(lines[i]) - len(lines[i].lstrip()) > indent
            if lines[i].startswith(' ' * indent + name + ' '):
                equations.append([lines[i].strip()])
            elif equations and under and not lines[i].strip().startswith('--'):
                equations[-1].append(lines[i].strip())
            elif not under and not re.match(r'\s*unfolding\b', lines[i]):
                break
            i += 1
        if not of_record and not equations:
            continue
        equations = [' '.join(parts) for parts in equations]
        head, types, made = (TOKEN.findall(' '.join(parts)) for parts in ([head for _, head in heads], says, equations))
        bound = bound_in(head + types + made) | {after for token, after in zip(made, made[1:]) if token == 'let'}
        for equation in equations:
            bound |= {token for token in TOKEN.findall(equation.split(' = ')[0]) if re.match(r"[a-z_][\w'\-]*$", token) and token not in CONSTRUCTORS}
        whole = head + ['⊢'] + (types if of_record else split_binders(types)) + ['⊢'] + made
        yield start + 1, name, renamed(['◆' if token == name else known.get(token, token) for token in whole], bound - {name})


def functions(text):
    """Yields (line, name, tokens) of each function without its clauses and comments."""
    bare = re.sub(r'//[^\n]*', '', text)
    for found in re.finditer(r'^([ ]*)(?:pub(?:\([a-z]+\))? )?fn (\w+)', bare, re.M):
        end = re.search(rf'^{found[1]}}}$', bare[found.start():], re.M)
        if not end:
            continue
        whole = bare[found.end():found.start() + end.start()]
        kept, depth, skips = [], 0, False
        for line in whole.split('\n'):
            if re.match(r'\s*(ensures|requires)\b', line):
                skips = True
            elif line == found[1] + '{':
                skips = False
            if not skips:
                kept.append(line)
        tokens = TOKEN.findall('\n'.join(kept))
        bound = {tokens[i] for i in range(len(tokens) - 1) if WORD.match(tokens[i]) and tokens[i + 1] == ':'}
        bound |= {tokens[i + 1] if tokens[i + 1] != 'mut' else tokens[i + 2] for i in range(len(tokens) - 2) if tokens[i] in ('let', 'for')}
        yield bare[:found.start()].count('\n') + 1, found[2], renamed(tokens, bound)


def shown(kind, groups, most):
    twice = sorted((group for group in groups.values() if len(group) > 1), key=lambda group: -len(group))
    for group in twice[:most]:
        print(f'{kind}: ' + ', '.join(f'{name} ({path}:{line})' for path, line, name in group))
    return len(twice), sum(len(group) - 1 for group in twice)


def main():
    words = argparse.ArgumentParser()
    words.add_argument('--most', type=int, default=10)
    words.add_argument('--least', type=int, default=16)
    words.add_argument('crates', nargs='*')
    given = words.parse_args()
    crates = given.crates or sorted(os.listdir(os.path.join(ROOT, 'crates')))
    stated, defined, written = (collections.defaultdict(list) for _ in range(3))
    for path, text in files_of(crates, ('proofs',), '.antt'):
        for line, name, tokens in statements(text):
            if len(tokens) >= given.least and FACTS.intersection(tokens):
                stated[renamed(tokens, bound_in(tokens))].append((path, line, name))
    for path, text in files_of(crates, ('specs', 'proofs'), '.antt'):
        for line, name, tokens in definitions(path, text):
            if len(tokens) >= given.least:
                defined[tokens].append((path, line, name))
    for path, text in files_of(crates, ('src',), '.rt'):
        if '/tests' not in path:
            for line, name, tokens in functions(text):
                if len(tokens) >= given.least:
                    written[tokens].append((path, line, name))
    one, two, three = (shown(kind, groups, given.most) for kind, groups in (('stated twice', stated), ('defined twice', defined), ('written twice', written)))
    print(f'twice: {one[0]} statements with {one[1]} copies too many, {two[0]} definitions with {two[1]}, {three[0]} functions with {three[1]}')


if __name__ == '__main__':
    main()
