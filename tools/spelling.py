#!/usr/bin/env python3
"""Spells the words of the crates as today's Rattle does: a definition, a lemma's word or a field in snake case, where it stood in camel case.

  tools/spelling.py [--check]      in the repository's root, once, right after /opt/rattle/port/port.py; --check writes nothing

The words are those that a file of specs/ or proofs/ declares, at its head or in a module, as `name : type`, and that begin with a small letter and hold a
capital: `floorDiv` becomes `floor_div`, `under4A` `under4a`. They turn in the .antt files, in the .rt files (clauses, ghost items and comments) and in the lines of the must-fail edits. Types and modules keep their
capitals, Rust's names and texts in quotation marks stay, and so do dashes, which join two names. In README and docs/ they turn within backquotes. LEMMAS has the lemmas
that would share a definition's new name. It says where a word's new spelling stood in the file already.
"""
import os
import re
import sys

WORD = r"[^\s(){}\[\].;,@\"«»`]+"
DECLARED = re.compile(r"^[ ]*(?:(?:pub|abbrev|unfoldable)[ ]+)*(" + WORD + r")(?:[ ]*[{(][^{}()]*[)}])*[ ]+:(?:[ ]|$)", re.M)
# lemmas whose plain name is now a definition's, in the files that begin so
LEMMAS = [('crates/test_case/', 'one_more', 'one_more-is'), ('crates/block_registers/proofs/BlockLaws', 'moved_word', 'moved_word-at')]


def files(*endings):
    for folder, dirs, names in os.walk('crates'):
        dirs[:] = sorted(d for d in dirs if d != 'out')
        for name in sorted(names):
            if name.endswith(endings):
                yield os.path.join(folder, name)


def read(path):
    with open(path, encoding='utf-8') as f:
        return f.read()


def snake(name):
    name = re.sub(r'(?<=[0-9])([A-F])(?![a-z])', lambda m: m[1].lower(), name)
    name = re.sub(r'(?<=[a-z])([A-Z]+)(?![a-zA-Z])', lambda m: '_' + m[1].lower(), name)
    name = re.sub(r'(?<=-)([A-Z]+)(?![a-zA-Z])', lambda m: m[1].lower(), name)
    return re.sub(r'(?<=[a-z0-9])[A-Z]', lambda m: '_' + m[0].lower(), name)


def table():
    words = set()
    for path in files('.antt'):
        text = re.sub(r'(?<![^\s(){}.;,@"«»])--[^\n]*', '', read(path))
        words |= {w for w in DECLARED.findall(text) if re.match(r'[a-z]', w) and re.search('[A-Z]', w)}
    return {w: snake(w) for w in words}


def main(argv):
    rows = table()
    word = re.compile(r'"(?:[^"\\\n]|\\.)*"|(?<![\w\'-])[a-z][\w\'-]*(?![\w\'-])')
    met = {}
    for path in files('.antt', '.rt', '.edit'):
        text = read(path)
        had = set(re.findall(r"(?<![\w'-])[a-z][\w'-]*(?![\w'-])", text))
        for old in sorted(had & set(rows)):
            if rows[old] in had:
                met.setdefault((old, rows[old]), []).append(path)
        here = {old: new for start, old, new in LEMMAS if path.startswith(start) and path.endswith('.antt')}
        new = word.sub(lambda m: here.get(m[0]) or rows.get(m[0], m[0]), text)
        if new != text and '--check' not in argv:
            with open(path, 'w', encoding='utf-8') as f:
                f.write(new)
    for path in ['README.md'] + sorted(os.path.join('docs', name) for name in os.listdir('docs') if name.endswith('.md')):
        text = read(path)
        new = re.sub(r'`[^`\n]*`', lambda span: word.sub(lambda m: rows.get(m[0], m[0]), span[0]), text)
        if new != text and '--check' not in argv:
            with open(path, 'w', encoding='utf-8') as f:
                f.write(new)
    for (old, new), paths in sorted(met.items()):
        print(f'look: {old} is now {new}, which stood already in', *paths)
    print(f'{len(rows)} words')
    again = {}
    for old, new in rows.items():
        again.setdefault(new, []).append(old)
    for new, olds in again.items():
        if len(olds) > 1:
            print('together:', new, *olds)


if __name__ == '__main__':
    raise SystemExit(main(sys.argv[1:]))
