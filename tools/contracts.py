#!/usr/bin/env python3
"""Checks that every public contract has two wrong answers that are tried, and that `pub` means public.

  tools/contracts.py          check, and count the edits
  tools/contracts.py --list   print the public contracts, each with what tries its wrong answers

Run it in the repository's root. It prints what is wrong, and ends with status 1 if there is anything:
- a `pub fn` that no other crate calls, unless docs/CONTRACTS.md has it among the users' contracts;
- a must-fail edit whose old text does not stand exactly once in its file, or whose first line is not `CONTRACT: wrong answer.`, the contract being a function of its crate (`crate::module::function`) or,
  where the edit changes specs/, a definition (`crate/File: name`);
- a users' contract with a `requires`, without two wrong answers in its table of docs/CONTRACTS.md, or without two edits there unless it is `result ≡ definition`; an edit there that does not exist or
  tries another contract, a `row` there whose wrong answer no row of the contract names; the same, but for the `requires`, in the table of what the C calls are made of;
- another public contract with neither a row in its crate's proofs/Wrong.antt, which names two wrong answers, nor two edits.
"""
import glob
import os
import re
import sys

PAGE = 'docs/CONTRACTS.md'


def read(path):
    with open(path, encoding='utf-8') as file:
        return file.read()


def code(path):
    return re.sub(r'//.*', '', read(path))


def sources():
    """The code of each module, by crate and module."""
    return {(path.split('/')[1], os.path.basename(path)[:-3]): code(path) for path in sorted(glob.glob('crates/*/src/*.rt'))}


def path_of(crate, module, name):
    return '::'.join([crate, name] if module in ('lib', 'main') else [crate, module, name])


def functions(modules, kind=''):
    """The paths of all functions, or of the public ones, in the order of the source."""
    return [path_of(crate, module, name) for (crate, module), text in modules.items()
            for name in re.findall(rf'^\s*{kind}(?:extern "C" )?fn (\w+)', text, flags=re.M)]


def methods(modules):
    """The paths of the methods of each crate that another crate calls as `.name(`."""
    by_crate = {}
    for (crate, _), text in modules.items():
        by_crate.setdefault(crate, set()).update(re.findall(r'\.(\w+)\(', text))
    own = {(crate, path_of(crate, module, name)): name for (crate, module), text in modules.items()
           for name in re.findall(r'^ +pub fn (\w+)\((?:&(?:mut )?|mut )?self\b', text, flags=re.M)}
    return {path for (crate, path), name in own.items() if any(name in used for other, used in by_crate.items() if other != crate)}


def called(modules):
    """The paths into other crates that some crate names, `use` items with braces taken apart, and the methods that are called there."""
    names = methods(modules)
    for text in modules.values():
        imported = re.findall(r'^use ([\w:]+);', text, flags=re.M)
        for head, inner in re.findall(r'\b([\w:]+)::\{([^}]*)\}', text):
            imported += [f'{head}::{name.strip()}' for name in inner.split(',') if name.strip()]
        paths, local = re.findall(r'\b\w+(?:::\w+)+', text), {path.split('::')[-1]: path for path in imported}
        names |= {*imported, *paths}
        names |= {f'{local[head]}::{rest}' for head, _, rest in (path.partition('::') for path in paths) if head in local}
    # a function of a type, `module::Type::name`, goes by its module and its name
    return names | {re.sub(r'::[A-Z]\w*(?=::\w+$)', '', path) for path in names}


def edits():
    """The first line of each edit and the folder that it changes, by `crate/label`."""
    return {f'{path.split("/")[1]}/{os.path.basename(path)[:-5]}': (read(path).split('\n')[0], re.findall(r'^file: (\w+)/', read(path), flags=re.M))
            for path in sorted(glob.glob('crates/*/must-fail/*.edit'))}


def unfit(path):
    """The texts that an edit replaces and that do not stand exactly once in their file."""
    file = None
    for line in read(path).split('\n'):
        file = line[6:] if line.startswith('file: ') else file
        if line.startswith('old: ') and read(f'crates/{path.split("/")[1]}/{file}').count(line[5:]) != 1:
            yield f'{path}: `{line[5:].strip()}` is not once in {file}'


def tried(line):
    """The contract that the first line of an edit names."""
    found = re.match(r"([\w/]+: [\w'-]+|\w+(?:::\w+)+): .+\.$", line)
    return found.group(1) if found else None


def wrong_edit(label, line, folders, known):
    crate, contract = label.split('/')[0], tried(line)
    if not contract:
        return f'{label}: the first line is not `CONTRACT: wrong answer.`'
    if 'specs' in folders and '/' in contract:
        file, name = contract.split(': ')
        page = f'crates/{crate}/specs/{file.split("/")[1]}.antt'
        good = file.split('/')[0] == crate and os.path.exists(page) and re.search(r'(?<![\w-])' + re.escape(name) + r'(?![\w-])', read(page))
    else:
        good = contract in known and contract.split('::')[0] == crate
    return None if good else f'{label}: no {contract} in its crate'


def rows(crate):
    """The functions with rows, each with the wrong answers that these name, and what is wrong with the file."""
    path = f'crates/{crate}/proofs/Wrong.antt'
    if not os.path.exists(path):
        return {}, []
    text = read(path).split('\nrows =\n')[-1]
    named, faults = {}, []
    for comment, row in re.findall(r'^ *-- (.*)\n *(?:∷ )?(\S+)', text, flags=re.M):
        found = re.match(r'(\w+(?:::\w+)*): ([^;]+; .+)$', comment)
        if found and row in ('one', 'some'):
            named.setdefault(f'{crate}::{found.group(1)}', []).extend(found.group(2).split('; '))
        else:
            faults.append(f'{path}: `{comment}` is not `function: wrong answer; wrong answer` above a row')
    return named, faults


def listed(part='What users call'):
    """The contracts from the table of a part of the page, each with its wrong answers and what tries them: an edit, or `row`."""
    table = {}
    for contract, answer, means in re.findall(r'^\| `([\w:]+)` \| (.*) \| ([\w/]+) \|$', read(PAGE).split(f'\n## {part}\n')[1].split('\n## ')[0], flags=re.M):
        table.setdefault(contract, []).append((answer, means))
    return table


def heads(modules):
    """The text of each function up to its body, with its contract, by path."""
    found = [(crate, module, text.split('\n{')[0]) for (crate, module), code in modules.items() for text in re.split(r'\bfn ', code)[1:]]
    return {path_of(crate, module, re.match(r'\w+', text).group()): text for crate, module, text in found}


def faults_of(name, answers, edited, named, head):
    """What is wrong with the wrong answers of a contract that the page lists: these, its edits, and the wrong answers that its rows name."""
    by_edits = [means for _, means in answers if means != 'row']
    equation = len(re.findall(r'\bensures\b', head)) == 1 and re.search(r'\bensures(?: \w+)? \{ result ≡ [^×]* \}\s*$', head)
    yield from (f'{PAGE}: {edit} is no edit of {name}' for edit in by_edits if edit not in edited)
    yield from (f'{PAGE}: {name} lacks {edit}' for edit in edited if edit not in by_edits)
    yield from (f'{PAGE}: no row of {name} names `{answer}`' for answer, means in answers if means == 'row' and answer not in named)
    if len(answers if equation else by_edits) < 2:
        yield f'{name}: fewer than two ' + ('wrong answers' if equation else 'edits')


def main(words):
    modules = sources()
    public, every, names = functions(modules, 'pub '), set(functions(modules)) | set(functions(modules, r'(?:pub(?:\(crate\))?|final) ')), called(modules)
    found, users, inner, head, wrong = edits(), listed(), listed('What the C calls are made of'), heads(modules), []
    wrong += [fault for path in sorted(glob.glob('crates/*/must-fail/*.edit')) for fault in unfit(path)]
    wrong += [fault for label, (line, folders) in found.items() for fault in [wrong_edit(label, line, folders, every)] if fault]
    by_edit = {}
    for label, (line, _) in found.items():
        by_edit.setdefault(tried(line), []).append(label)
    by_row = {}
    for crate in sorted({crate for crate, _ in modules}):
        have, faults = rows(crate)
        by_row |= have
        wrong += faults + [f'{name}: a row in proofs/Wrong.antt, and no public function' for name in sorted(set(have) - set(public))]
    for name in public:
        if name in users | inner:
            wrong += faults_of(name, (users | inner)[name], by_edit.get(name, []), by_row.get(name, []), head[name])
        if name in users:
            wrong += [f'{name}: called by users, and has a `requires`'] if re.search(r'\brequires\b', head[name]) else []
        elif name not in names:
            wrong.append(f'{name}: public, and no other crate calls it')
        elif name not in by_row and len(by_edit.get(name, [])) < 2:
            wrong.append(f'{name}: neither a row nor two edits')
        if '--list' in words:
            print(name, '·', 'row' if name in by_row else '-', '·', ' '.join(by_edit.get(name, [])))
    wrong += [f'{PAGE}: no public {name}' for name in users | inner if name not in public]
    print('\n'.join(wrong) or f'{len(public)} public contracts, {len(users)} of them called by users, {len(found)} must-fail edits')
    return 1 if wrong else 0


if __name__ == '__main__':
    sys.exit(main(sys.argv[1:]))
