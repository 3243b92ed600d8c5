#!/usr/bin/env python3
"""Checks that each crate uses every crate that crates.txt names for it: an import that nothing uses is proved for nothing.

Run it in the repository's root. It prints each name that is not used, and ends with status 1 if there is one.
"""
import glob
import re
import sys

# a crate whose values pass through another one that does not name it
UNNAMED = {('execute_floats', 'float'), ('test_cases', 'machine')}


def read(path):
    with open(path, encoding='utf-8') as file:
        return file.read()


def unused():
    for line in read('crates.txt').split('\n'):
        head, _, named = line.split('#')[0].partition(':')
        # `NAME staticlib`, of a static library
        name = ''.join(head.split()[:1])
        files = [path for part in ('src', 'specs', 'proofs') for path in glob.glob(f'crates/{name}/{part}/**/*.*', recursive=True)]
        text = '\n'.join(read(path) for path in files)
        for other in named.split():
            if (name, other) not in UNNAMED and not re.search(rf'\b{other}::|\bRattle\.{other}\.', text):
                yield f'crates.txt: {name} does not use {other}'


def main():
    wrong = list(unused())
    print('\n'.join(wrong) or 'every crate uses what crates.txt names for it')
    return 1 if wrong else 0


if __name__ == '__main__':
    sys.exit(main())
