#!/usr/bin/env python3
"""Spells the definitions and lemmas of specs/ and proofs/ in snake case, in every crate and in the pages.

usage: respell.py          in the repository: rewrites the files in place and writes the table of the names to docs/respelled.tsv
       respell.py --list   prints the table alone

A name is turned where a file of specs/ or proofs/ outside a function's folder declares it: its words are joined by _ and are in lower
case; a part that names a type keeps its capital and its dash. Names of src/, exported names and texts in quotes stay. A lemma that would
meet a definition gets the ending _lem; a name that would meet a word of another kind in one of its files is listed as 'stays'.
"""
import collections
import os
import re
import sys

WORD = r'[^\s(){}.;,@"«»\[\]]+'
HEAD = r'(?:(?:pub|abbrev|unfoldable|opaque|instance|private) )*'
DECLARED = re.compile(rf'^ *{HEAD}({WORD})(?: \{{[^{{}}]*\}}| \([^()]*\))* :')
TYPE = re.compile(rf'^ *(?:pub )?(?:record|data) ({WORD})')


def texts(root):
    for top, folders, files in os.walk(os.path.join(root, 'crates')):
        folders[:] = sorted(f for f in folders if f != 'out')
        for f in sorted(files):
            if f.endswith(('.antt', '.rt', '.edit')):
                yield os.path.join(top, f)


def read(path):
    with open(path, encoding='utf-8') as f:
        return f.read()


def is_shared(path):
    """Whether a file of specs/ or proofs/ stands in no function's folder."""
    return path.endswith('.antt') and os.path.basename(os.path.dirname(path)) in ('specs', 'proofs')


def declared(paths):
    names = set()
    for p in paths:
        for line in read(p).split('\n'):
            bare = line.lstrip()
            if bare.startswith(('--', 'use ', 'pub use ', 'λ', 'let ', '(')):
                continue
            for form in (DECLARED, TYPE):
                m = form.match(line)
                if m:
                    names.add(m[1])
    return names


def snake(word):
    word = re.sub(r'(?<=[a-z0-9])[A-Z]', lambda m: '_' + m[0].lower(), word)
    return word


def spelled(name):
    parts = name.split('-')
    if not all(parts):
        return name
    out = parts[0] if parts[0][:1].isupper() else snake(parts[0])
    for before, part in zip(parts, parts[1:]):
        typed = before[:1].isupper() or part[:1].isupper()
        out += ('-' if typed else '_') + (part if part[:1].isupper() else snake(part))
    return out


def parameters(text):
    """The names of functions' parameters, of struct fields and of closures: those that a clause could mean."""
    found = set()
    for m in re.finditer(r'\bfn \w+(?:<[^(]*>)?\(', text):
        depth, i = 1, m.end()
        while depth and i < len(text):
            depth += {'(': 1, ')': -1}.get(text[i], 0)
            i += 1
        found |= set(re.findall(r'(?:^|[,(\s])(\w+):(?!:)', text[m.end():i]))
    return found


def words(path):
    """The words of a file that could hide a definition: not a part of a path, and in a source file the parameters alone."""
    text = read(path)
    if path.endswith('.rt'):
        return parameters(text)
    text = re.sub(r'(?m)--[^\n]*', '', text)
    return set(re.findall(rf'(?<![.\w])(?<!\S\.){WORD}(?!\.)', text))


def cited(path):
    """The names in a source file's clauses and imports that are not in snake case."""
    return {w for w in re.findall(WORD, read(path)) if re.search(r'[a-z0-9][A-Z]|-', w)} if path.endswith('.rt') else set()


def table(paths):
    names = declared([p for p in paths if is_shared(p)])
    turned = {n: spelled(n) for n in names if n[:1].islower() and spelled(n) != n}
    within = collections.defaultdict(set)
    for p in paths:
        if not p.endswith('.edit'):
            for w in words(p) | cited(p):
                within[w].add(p)
    lemmas = {n for n in turned if '-' in n}
    meets = collections.defaultdict(list)
    for n, new in turned.items():
        meets[new].append(n)
    rows, stays = {}, []
    for n in sorted(turned):
        new = turned[n]
        others = [m for m in meets[new] if m != n]
        clash = (within[n] & within[new]) if new in within else set()
        if others or clash or new in names:
            if n in lemmas:
                new += '_lem'
            elif clash and new in names:
                rows[new] = new + '_lem'
            elif clash:
                stays.append((n, new, sorted(clash)[:3]))
                continue
        rows[n] = new
    return rows, stays


def turned(text, rows, kind, steps=()):
    def each(m):
        # A step of a function's proof is named after the function that is called.
        if m.string[m.start() - 1:m.start()] == '.' and m[0] in steps:
            return m[0]
        # A part of a path, and a function of src/, keep their names.
        plain = '-' not in m[0] and not re.search(r'[a-z0-9][A-Z]', m[0])
        if plain and (kind == 'rt' or m.string[m.end():m.end() + 1] == '.' or m.string[m.start() - 1:m.start()] == '.'):
            return m[0]
        return rows.get(m[0], m[0])
    out, i = [], 0
    comment = r'--[^\n]*' if kind == 'antt' else r'//[^\n]*'
    for m in re.finditer(rf'"(?:\\.|[^"\\\n])*"|(?:(?<=\s)|^){comment}', text, re.M):
        out.append(re.sub(WORD, each, text[i:m.start()]))
        quiet = m[0]
        if not quiet.startswith('"'):
            quiet = re.sub(r'`[^`]*`', lambda s: re.sub(WORD.replace('"', '"`'), each, s[0]), quiet)
        out.append(quiet)
        i = m.end()
    out.append(re.sub(WORD, each, text[i:]))
    return ''.join(out)


def of_page(text, rows):
    return re.sub(r'`[^`\n]+`', lambda s: re.sub(r'[^\s(){}.;,@"«»\[\]`]+', lambda m: rows.get(m[0], m[0]), s[0]), text)


def main():
    root = os.getcwd()
    paths = list(texts(root))
    rows, stays = table(paths)
    if '--list' in sys.argv:
        for n, new in rows.items():
            print(n, new, sep='\t')
        for s in stays:
            print('stays', *s)
        return
    called = set().union(*(re.findall(r'\bfn (\w+)', read(p)) for p in paths if p.endswith('.rt')))
    steps = {n for n in rows if n.replace('-', '_') in called}
    for p in paths:
        old = read(p)
        new = turned(old, rows, 'rt' if p.endswith('.rt') else 'antt', () if is_shared(p) else steps)
        if new != old:
            with open(p, 'w', encoding='utf-8') as f:
                f.write(new)
    pages = ['README.md', 'docs/ARCHITECTURE.md', 'docs/DECISIONS.md']
    for p in pages:
        old = read(p)
        new = of_page(old, rows)
        if new != old:
            with open(p, 'w', encoding='utf-8') as f:
                f.write(new)
    with open('docs/respelled.tsv', 'w', encoding='utf-8') as f:
        for n, new in rows.items():
            f.write(f'{n}\t{new}\n')
    for s in stays:
        print('stays:', *s)
    print(len(rows), 'names turned')


main()
