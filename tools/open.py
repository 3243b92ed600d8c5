#!/usr/bin/env python3
"""Writes the modules that open all definitions of a group of crates at once, for facts that the checker computes.

  tools/open.py          write the files
  tools/open.py --check  say whether they are up to date (exit 1 where not)

Run it in the repository's root after a definition was added, renamed or removed. A crate with definitions that `isa` stands on and that no group has
is an error.
"""
import glob
import os
import re
import sys

# file: the name to unfold, what it opens, the crates in order
GROUPS = {
    'machine/proofs/Opened': ('machinery', 'of the machine', ['page', 'bits', 'machine']),
    'isa/proofs/OpenWords': ('words', 'of words, integers and shifts', ['twos_complement', 'word', 'bits', 'fixed_add', 'fixed_muldiv', 'shift']),
    'isa/proofs/OpenFloats': ('floats', 'of floats', ['float', 'float_exact', 'float_add', 'float_mul', 'float_div', 'float_convert']),
    'isa/proofs/OpenDecoder': ('decoder', 'of decoding', ['decode']),
    'isa/proofs/OpenInstructions': ('instructions', 'of the instruction set', ['isa']),
    'image/proofs/Opened': ('images', 'of reset and of images', ['reset', 'image']),
}
DEFINED = re.compile(r'^\s*unfoldable pub (\S+) :', re.M)


def read(path):
    with open(path, encoding='utf-8') as file:
        return file.read()


def modules(crate):
    """The modules of a crate that have definitions, with the definitions."""
    for file in sorted(glob.glob(f'crates/{crate}/specs/*.antt')):
        found = DEFINED.findall(read(file))
        if found:
            yield f'Rattle.{crate}.specs.{os.path.basename(file)[:-5]}', found


def text(file):
    name, what, crates = GROUPS[file]
    opened = [module for crate in crates for module in modules(crate)]
    return (f'-- Opens every definition {what} at once: `unfolding {name}`. Written by tools/open.py. Assumes nothing.\n'
            + ''.join(f'use {path}.{{{", ".join(found)}}}\n' for path, found in opened)
            + f'\nunfoldable pub {name} : Unit {{0}}\nunfolding {" ".join(name for _, found in opened for name in found)}\n{name} = tt\n')


def unknown():
    """The crates with definitions that no group has, among those that `isa` names."""
    below = re.search(r'^isa: (.*)$', read('crates.txt'), flags=re.M).group(1).split()
    known = {crate for _, _, crates in GROUPS.values() for crate in crates}
    return [crate for crate in below if crate not in known and any(modules(crate))]


def main(words):
    wrong = [f'no group of tools/open.py has the crate {crate}' for crate in unknown()]
    print(*wrong, sep='\n', end='\n' if wrong else '')
    for file in GROUPS:
        path = f'crates/{file}.antt'
        if os.path.exists(path) and read(path) == text(file):
            continue
        if '--check' in words:
            wrong.append(path)
            print('stale: ' + path)
        else:
            print('written: ' + path)
            with open(path, 'w', encoding='utf-8') as out:
                out.write(text(file))
    if not wrong and '--check' in words:
        print('every module that opens definitions is up to date')
    return 1 if wrong else 0


if __name__ == '__main__':
    sys.exit(main(sys.argv[1:]))
