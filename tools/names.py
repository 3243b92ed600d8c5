#!/usr/bin/env python3
"""Checks that what README.md and docs/ name is there: each `crate: name, ..`, `crate/File: name, ..`, `crate::module::name` and path in backquotes.

docs/PORT.md and docs/DESIGN-PASS.md are left out: they name what was there before beside what is there now. Run it in the repository's root. It prints each name that is not there, and ends with status 1 if there is one.
"""
import glob
import os
import re
import sys

# the words of the pages' own patterns, and what is no Rattle crate
OTHERS = ('crate', 'libc', 'os', 'simulator', 'std')
# the folders at which a path starts, and what stands for a name in one
FOLDERS = ('comparison', 'crates', 'docs', 'examples', 'interface', 'simulator', 'tools')
STAND_INS = ('CRATE', 'LABEL', 'FN')
# the pages that have names of before
BEFORE = ('docs/PORT.md', 'docs/DESIGN-PASS.md')
# what a check or a build writes is not committed
MADE = re.compile(r'crates/\w+/out/')


def text(crate, *parts):
    files = [file for part in parts for file in glob.glob(f'crates/{crate}/{part}/**/*.*', recursive=True)]
    return '\n'.join(open(file, encoding='utf-8').read() for file in files)


def has(crate, name, *parts):
    return re.search(r"(?<![\w'-])" + re.escape(name) + r"(?![\w'-])", text(crate, *parts))


def missing_definitions(crate, file, names):
    if file and not any(os.path.exists(f'crates/{crate}/{part}/{file}.antt') for part in ('specs', 'proofs')):
        return [file]
    return [name for name in names if not has(crate, name, 'specs', 'src', 'proofs')]


def missing_function(crate, path):
    if os.path.exists(f'crates/{crate}/src/{path[-1]}.rt'):
        return []
    module = f'crates/{crate}/src/{path[0] if path[1:] else "lib"}.rt'
    return [] if os.path.exists(module) and has(crate, path[-1], 'src') else path[-1:]


def missing_paths(quoted):
    paths = re.findall(r'(?<!\S)(?:%s)/[\w./-]*' % '|'.join(FOLDERS), quoted)
    return [path for path in paths if not any(word in path for word in STAND_INS) and not MADE.match(path) and not os.path.exists(path)]


def missing_names(quoted):
    found = re.fullmatch(r"(\w+)(?:/(?:specs/|proofs/)?(\w+))?: ([\w', -]+)", quoted)
    crates = [found.group(1)] if found else [part[0] for part in re.findall(r'(\w+)((?:::\w+)+)', quoted)]
    crates = [crate for crate in crates if crate not in OTHERS]
    unknown = [crate for crate in crates if not os.path.isdir(f'crates/{crate}')]
    if unknown or not crates:
        return unknown
    if found:
        return missing_definitions(crates[0], found.group(2), [name.strip() for name in found.group(3).split(',')])
    return [name for crate, path in re.findall(r'(\w+)((?:::\w+)+)', quoted) if crate in crates for name in missing_function(crate, path.split('::')[1:])]


def missing(quoted):
    return missing_names(quoted) + missing_paths(quoted)


def main():
    wrong = [f'{page}:{number}: `{quoted}`: no {name}' for page in ['README.md'] + sorted(set(glob.glob('docs/*.md')) - set(BEFORE))
             for number, line in enumerate(open(page, encoding='utf-8'), 1) for quoted in re.findall(r'`([^`]+)`', line) for name in missing(quoted)]
    print('\n'.join(wrong) or 'every name in README.md and docs/ is there')
    return 1 if wrong else 0


if __name__ == '__main__':
    sys.exit(main())
