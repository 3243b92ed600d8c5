#!/usr/bin/env python3
"""Repeats docs/USING.md: runs each of its commands and compares what they print; compares its numbers with the header's and the wrapper's.

Run it in the repository's root after `rt ci`, and `rt lib` in crates/capi, so that the programs and the library are there. It prints the first
difference, and ends with status 1 if there is one.

- A fenced block that has a path after its language, as ```c sum.c, is a file. It is an excerpt where the path starts as one of EXCERPTS does, here and in
  docs/CHANGING.md: that file of the repository has these lines.
- A block ```console has commands, each on one line after `$ `; the lines up to the next command are all that it prints, errors included. A block
  of any other kind is an error, and so is a page without commands.
- The commands are run by bash, in the order of the page, in a new folder with the files and with links to some folders of the repository. So
  the page has them as they are typed in the root.
- A row `| number | name | ..` of a table that names a number of the header, and in the table of refusals its variant in Rust, has the same number there;
  none is missing.
"""
import os
import re
import subprocess
import sys
import tempfile

PAGE, CHANGING = 'docs/USING.md', 'docs/CHANGING.md'
LINKED = ('crates', 'examples', 'interface', 'simulator')
EXCERPTS = ('crates/', 'interface/')
SECONDS = 300


def read(path):
    with open(path, encoding='utf-8') as file:
        return file.read()


def blocks(page):
    """The fenced blocks of a page: language, path, text."""
    return re.findall(r'^```(\w*) ?(\S*)\n(.*?)^```$', read(page), flags=re.M | re.S)


def commands(text):
    """The commands of a block, each with what it prints."""
    head, *parts = re.split(r'^\$ ', text, flags=re.M)
    return [(None, head)] * (head != '') + [part.split('\n', 1) for part in parts]


def printed(folder, command):
    """What a command prints in a folder."""
    ran = subprocess.run(['bash', '-c', command], cwd=folder, stdin=subprocess.DEVNULL, stdout=subprocess.PIPE, stderr=subprocess.STDOUT,
                         timeout=SECONDS, env=dict(os.environ, LC_ALL='C'))
    return ran.stdout.decode('utf-8', 'replace')


def save(folder, path, text):
    path = os.path.join(folder, path)
    os.makedirs(os.path.dirname(path), exist_ok=True)
    with open(path, 'w', encoding='utf-8') as file:
        file.write(text)


def difference(folder, command, text):
    """The first line of a command that is printed otherwise than the page has it, or nothing."""
    if command is None:
        return f'{PAGE}: no command before `{text.splitlines()[0]}`'
    got = printed(folder, command)
    if got == text:
        return None
    wanted, found = text.split('\n'), got.split('\n')
    at = next((i for i, (a, b) in enumerate(zip(wanted, found)) if a != b), min(len(wanted), len(found)))
    line = [lines[at] if at < len(lines) else '' for lines in (wanted, found)]
    return f'$ {command}\nline {at + 1} in {PAGE}: {line[0]}\nline {at + 1} printed:  {line[1]}'


def repeated(folder):
    """The number of commands, and the first difference."""
    for _, path, text in blocks(PAGE):
        if path and not path.startswith(EXCERPTS):
            save(folder, path, text)
    for name in LINKED:
        os.symlink(os.path.abspath(name), os.path.join(folder, name))
    count = 0
    for language, text in [(language, text) for language, path, text in blocks(PAGE) if not path]:
        if language != 'console':
            return count, f'{PAGE}: a block of the kind `{language}` has no path'
        for command, wanted in commands(text):
            wrong = difference(folder, command, wanted)
            if wrong:
                return count, wrong
            count += 1
    return count, None if count else f'{PAGE}: no commands'


def told(pattern, path):
    """The names that a file gives to numbers."""
    return {name: int(number) for name, number in re.findall(pattern, read(path), flags=re.M)}


def numbers():
    """What the tables of the page have otherwise than the header and the wrapper."""
    rows = re.findall(r'^\| ([\d,]+) \| `TWIN1750_(\w+)` \|(?: `(\w+)` \|)?', read(PAGE), flags=re.M)
    header = told(r'TWIN1750_(\w+) =? ?(\d+)\b', 'interface/twin1750.h')
    wrapper = told(r'^    (\w+) = (\d+),', 'interface/rust/src/refusal.rs')
    named = {name: int(number.replace(',', '')) for number, name, _ in rows}
    variants = {variant: int(number) for number, name, variant in rows if name.startswith('REFUSED_')}
    for page, other, where in ((named, header, 'the header'), (variants, wrapper, 'the wrapper')):
        for name in sorted(page.keys() | other.keys()):
            if page.get(name) != other.get(name):
                yield f'{PAGE}: {name} is {page.get(name)}, and {other.get(name)} in {where}'


def excerpts():
    """The excerpts that their files do not have."""
    for page in (PAGE, CHANGING):
        for _, path, text in blocks(page):
            if path.startswith(EXCERPTS) and not (os.path.exists(path) and '\n' + text in '\n' + read(path)):
                yield f'{page}: {path} does not have the lines from `{text.splitlines()[0]}` on'


def main():
    wrong = [*numbers(), *excerpts()]
    with tempfile.TemporaryDirectory() as folder:
        count, first = repeated(folder)
    wrong += [first] if first else []
    print('\n'.join(wrong) or f'{count} commands of {PAGE} print what it says, and its numbers are those of the header and the wrapper')
    return 1 if wrong else 0


if __name__ == '__main__':
    sys.exit(main())
