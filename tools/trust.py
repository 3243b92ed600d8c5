#!/usr/bin/env python3
"""Lists what has to be believed: the definitions that the contracts of the entry points cite, directly or through other definitions.

  tools/trust.py              write the list into docs/TRUST.md
  tools/trust.py --check      say whether the list is up to date (exit 1 where not, with each definition that it lacks or has too much)
  tools/trust.py --unreached  print the definitions in specs/ that no entry point comes to, by file

Run it in the repository's root. The entry points are the users' contracts of docs/CONTRACTS.md and the theorems of THEOREMS. Each word of a contract or a definition
that its file defines or imports counts as cited, so the list may have one too many and none too few. An import that is not understood, a paragraph that is not one
definition, a name that is not found and a file that ORDER lacks are errors.
"""
import glob
import re
import sys

from contracts import listed, path_of, read

PAGE = 'docs/TRUST.md'
FROM, TO = '<!-- tools/trust.py writes from here -->\n', '<!-- tools/trust.py writes up to here -->\n'
THEOREMS = ('run/proofs/Isolated', 'line/proofs/RoundTrip', 'isa/proofs/OldTimers')
KIT = ('Rattle.std.', 'Prim.', 'mathlib.', 'lib.', 'native.')
HEAD = re.compile(r' *(?:(?:unfoldable |abbrev )?(?:pub )?([^\s:()]+) :|(?:pub )?(record|data) (\S+))(?=\s)')

# the reading order: parts, and their files; a crate alone stands for its structs and enums
ORDER = {
    'Numbers and words': 'choice/Select choice/Table twos_complement/Whole twos_complement/Normal word/Status word/Pair word/Compare word/Condition bits/Bits bits/Bytes '
    'fixed_add fixed_add/Fixed fixed_muldiv fixed_muldiv/Divide shift shift/Shift float float/Float float/Words float_add/Add float_exact/Exact float_exact/Steps float_mul/Multiply float_div/Divide '
    'float_convert/Convert',
    'Pages': 'page page/Pages page/Spans',
    'Decoding': 'decode/Modes decode/Forms decode/Operands decode/Pages decode/Decode',
    'The machine': 'machine machine/State machine/Faults machine/Machine machine/Instructions machine/Entries machine/Step machine/Timelines machine/Runs run',
    'The instruction set': 'isa/Fields isa/Addressing isa/Accesses isa/Effects isa/Words isa/Integers isa/Floats isa/Blocks isa/Execute isa/Commands isa/Mil1750',
    'Two machines compared': 'machine/Isolation run/Calls',
    'The old rule of the timers': 'machine/OldTimers isa/OldTimers',
    'Images': 'reset/Reset image image/Image image_load',
    'Mnemonic lines': 'choice/Search line_operand line_operand/Numerals line_operand/Shapes line_operand/Operands line_table/Boxes line line/Lines',
    'The program': 'text/Texts report/Report program/Printed',
    'The packed state and the C calls': 'packed/Packed capi/Calls capi/LineCalls',
}
# the kinds of lines, each line being of the first that fits
KINDS = {
    'the names of definitions with their types': r' *(?:unfoldable|abbrev|pub record|pub data) ',
    'fields and constructors; structs and enums of the code': r' *(?:pub )?\S+ : | *(?:pub )?\w+: |pub (?:struct|enum)| *\w+(?:\(.*\))?,$|\}$',
    'rows of tables: a page of section 5, an operation, a command, a part of the state each': r'.*∷$| *∷ ',
    'equations': '',
}


class Definition:
    """A definition, a theorem or a function's contract: its lines by number, the number of its comment lines, its words in antt, and the types of the code that it names."""
    def __init__(self, file, name, lines, comments, text, types=()):
        self.file, self.name, self.lines, self.comments, self.types = file, name, lines, comments, types
        self.words = re.findall(r'\[\]|[^\s(){}\[\],;]+', text)

    def __str__(self):
        return self.name if '::' in self.name else f'{self.file.label}: {self.name}'


class File:
    """A file: its definitions by name, where a constructor stands for its type, and what it imports."""
    def __init__(self, path):
        self.path, self.code, (_, self.crate, folder, base) = path, path.endswith('.rt'), path.split('/')
        self.module = base.split('.')[0]
        self.label = self.crate if self.code else f'{self.crate}/{self.module}' if folder == 'specs' else f'{self.crate}/{folder}/{self.module}'
        self.own, self.imported, self.aliases, self.types = {}, {}, {}, {}
        # an import of the code can take several lines, and ends in a semicolon
        for line in re.findall(r'^ *((?:ghost |pub )*use [^;]*;)' if self.code else r'^ *((?:pub )?use .*)', read(path), flags=re.M):
            self.take(' '.join(line.split()))
        (read_code if self.code else read_definitions)(self)

    def take(self, line):
        """An import: of names, of a module under another name, or of a name of the code."""
        names, alias = re.fullmatch(r'(?:ghost )?use ([^\s{]+)\.\{(.*)\};?', line), re.fullmatch(r'(?:ghost )?use (\S+) as ([^\s;]+);?', line)
        items = re.fullmatch(r'(?:pub )?use (\w+)((?:::\w+)*)(?:::\{([^{}]*)\})?;', line)
        for name in names.group(2).split(', ') if names else []:
            name, _, other = name.partition(' as ')
            self.imported |= {piece: (names.group(1), name) for piece in (other or name).split('◌') + [other or name] if piece}
        if alias:
            self.aliases[alias.group(2)] = alias.group(1)
        elif items:
            crate, path, several = items.groups()
            named = re.split(r'[,\s]+', several.strip()) if several else path.split('::')[-1:]
            self.types |= {name: self.crate if crate == 'crate' else crate for name in named if name}
        elif not names:
            sys.exit(f'{self.path}: `{line}` is not understood')


def paragraphs(path):
    """The runs of lines between empty ones: how many are comments, and the other lines with their numbers, comments cut off."""
    block = []
    for number, line in enumerate(read(path).split('\n') + [''], 1):
        if line.strip():
            block.append((number, re.sub(r'(^|\s)(--|//).*', '', line).rstrip()))
        elif block:
            lines = [item for item in block if item[1]]
            yield len(block) - len(lines), lines
            block = []


def depth(item):
    """How far a numbered line is indented."""
    return len(item[1]) - len(item[1].lstrip())


def read_definitions(file):
    """The definitions of an .antt file, one a paragraph. A block `module _ (..) where` stands around what is deeper than it. Of theorems only what they state."""
    outer = []
    for comments, lines in paragraphs(file.path):
        lines = [item for item in lines if not re.match(r'use |pub mod ', item[1])]
        while lines and re.match(r' *module _ .* where$', lines[0][1]):
            outer = [item for item in outer if depth(item) < depth(lines[0])] + [lines.pop(0)]
        if not lines:
            continue
        outer = [item for item in outer if depth(item) < depth(lines[0])]
        starts = [place for place, item in enumerate(lines) if depth(item) == depth(lines[0])] + [len(lines)]
        head = HEAD.match(lines[0][1])
        if not head or any(HEAD.match(lines[place][1]) for place in starts[1:-1]):
            sys.exit(f'{file.path}:{lines[0][0]}: not one definition')
        shown = outer + lines[:starts[1] if file.label in THEOREMS else None]
        text, name = '\n'.join(line for _, line in shown), head.group(1) or head.group(3)
        made = Definition(file, name, dict(shown), comments, text)
        constructors = re.findall(r'^ +(\S+) : ', text, flags=re.M) if head.group(2) == 'data' else []
        file.own |= {each: made for each in [name] + constructors}


def read_code(file):
    """The structs and enums of a file of code, and its contracts: the head of a function, up to the brace of its body."""
    for comments, lines in paragraphs(file.path):
        text = '\n'.join(line for _, line in lines)
        found = re.search(r'^(?:pub |pub\(crate\) )?(struct|enum|fn|extern "C" fn) (\w+)', text, flags=re.M)
        if not found:
            continue
        (kind, name), start = found.groups(), text[:found.start()].count('\n')
        text = text[found.start():].split('\n{')[0]
        head, *clauses = re.split(r'\b(?:requires|ensures)(?: \w+)? \{', text)
        variants = re.findall(r'^ +(\w+)(?=[(,])', head, flags=re.M) if kind == 'enum' else []
        # type parameters stand for any type, and name none of the code
        parameters = re.findall(r'[<,] *(\w+)', (re.findall(r'(?:struct|enum|fn) \w+(<[^>]*>)', head) or [''])[0])
        types = [word for word in re.findall(r'\b[A-Z]\w*', head.replace('"C"', '')) if word not in [name] + variants + parameters]
        path = name if kind in ('struct', 'enum') else path_of(file.crate, file.module, name)
        file.own[path] = Definition(file, path, dict(lines[start:start + text.count('\n') + 1]), comments, '\n'.join(clauses), types)


class Reach:
    """All files, the entry points, and what they come to: each definition with the one that cites it; and the names of the kit."""
    def __init__(self):
        paths = sorted(glob.glob('crates/*/specs/*.antt') + glob.glob('crates/*/src/*.rt')) + [f'crates/{label}.antt' for label in THEOREMS]
        files = [File(path) for path in paths]
        self.files, self.kit = {file.label: file for file in files if not file.code}, {}
        self.code = {(file.crate, name): made for file in files if file.code for name, made in file.own.items()}
        theorems = [self.files[label].own[name] for label in THEOREMS for name in re.findall(r'^pub (\S+) :', read(f'crates/{label}.antt'), flags=re.M)]
        self.entries = [self.code[name.split('::')[0], name] for name in listed()] + theorems
        self.cited = self.closure(self.entries)

    def closure(self, entries):
        """What definitions come to, each with the first that cites it."""
        cited, waiting = {}, [(made, None) for made in entries]
        for made, by in waiting:
            if made not in cited:
                cited[made] = by
                waiting += [(other, made) for other in self.cites(made)]
        return {made: by for made, by in cited.items() if by}

    def cites(self, made):
        """The definitions that a definition cites, each once, in the order of its text."""
        try:
            found = [self.type_of(made.file, word) for word in made.types] + [self.meaning(made.file, word) for word in made.words]
        except KeyError as error:
            sys.exit(f'{made}: {error} is not found')
        return [other for other in dict.fromkeys(found) if other and other is not made]

    def type_of(self, file, word):
        """The struct or enum that a type of the code stands for; None where it is of the kit."""
        # Option and Result need no import
        crate = 'std' if word in ('Option', 'Result') else file.types.get(word, file.crate)
        if crate in ('std', 'arrayvec'):
            self.kit.setdefault(crate, set()).add(word)
            return None
        return self.code[crate, word]

    def meaning(self, file, word):
        """The definition that a word of a file stands for; None where it is one of the language, of the kit, or bound."""
        head, _, inner = word.partition('.')
        if head in file.aliases and not file.aliases[head].endswith('.Reads'):
            return self.at(file.aliases[head], inner.partition('.')[0])
        if head in file.imported:
            return self.at(*file.imported[head])
        if word.startswith('Rattle.'):
            raise KeyError(word)
        return None if file.code else file.own.get(head)

    def at(self, module, name):
        """What a module has under a name; None where it is of the kit."""
        if module.startswith(KIT):
            self.kit.setdefault(module, set()).add(name)
            return None
        crate, inside = (re.findall(r'^Rattle\.(\w+)\.specs\.(.*)', module) or [('', module)])[0]
        if inside.startswith('declared.'):
            return self.code[crate, inside.removesuffix('.TheVariants').split('.')[-1]]
        return self.files[f'{crate}/{inside}'].own[name]


def lines_of(definitions):
    """Their lines by file and number: that of a block around several counts once."""
    return {(made.file.path, number): line for made in definitions for number, line in made.lines.items()}


def counted(definitions):
    """How many, their lines, and their lines of comment."""
    return len(definitions), len(lines_of(definitions)), sum(made.comments for made in definitions)


def table(*rows):
    """A table; its first row is the head."""
    lines = [' | '.join(f'{cell:,}' if isinstance(cell, int) else cell for cell in cells) for cells in rows]
    return f'| {lines[0]} |\n|{"---|" * len(rows[0])}\n' + ''.join(f'| {line} |\n' for line in lines[1:]) + '\n'


def placed(reach):
    """The definitions that are reached, by part and file, in the order of ORDER and of the files."""
    found = {}
    for made in sorted(reach.cited, key=lambda made: (made.file.path, max(made.lines))):
        found.setdefault(made.file.label, []).append(made)
    lost = set(found) - set(' '.join(ORDER.values()).split())
    if lost:
        sys.exit(f'tools/trust.py: ORDER has no place for {", ".join(str(made) for label in sorted(lost) for made in found[label])}')
    return {part: {label: found[label] for label in labels.split() if label in found} for part, labels in ORDER.items()}


def written(reach):
    """The list, as it stands on the page."""
    parts, lines = placed(reach), list(lines_of(reach.cited).values())
    kinds = [next(kind for kind, form in KINDS.items() if re.match(form, line)) for line in lines]
    rows = [(part, len(files), *counted(sum(files.values(), []))) for part, files in parts.items()]
    text = table(('part', 'files', 'definitions', 'lines', 'lines of comment'), *rows, ('all', sum(row[1] for row in rows), *counted(reach.cited)))
    text += table(('lines that are', 'number'), *[(kind, kinds.count(kind)) for kind in KINDS])
    rows = [(f'`{made}`', len(made.lines), *counted(reach.closure([made]))[:2], ', '.join(other.name for other in reach.cites(made))) for made in reach.entries]
    text += '### Contracts and theorems\n\n' + table(('contract or theorem', 'its lines', 'definitions', 'their lines', 'cites'), *rows)
    for part, files in parts.items():
        rows = [(f'`{label}`', *counted(several), ', '.join(made.name for made in several)) for label, several in files.items()]
        text += f'### {part}\n\n' + table(('file', 'definitions', 'lines', 'lines of comment', 'names'), *rows)
    rows = [(f'`{module}`', len(names), ', '.join(f'`{name}`' for name in sorted(names)).replace('|', '\\|')) for module, names in sorted(reach.kit.items())]
    return text + '### Names of the kit\n\n' + table(('module', 'names', 'which'), *rows)


def listing(text):
    """What the rows of a list name: pairs of the first cell and of a name in the last one."""
    rows = [line[3:-2].split(' | ') for line in text.split('\n') if line.startswith('| `')]
    return {(row[0].strip('`'), name) for row in rows for name in row[-1].split(', ')}


def differences(reach, old, new):
    """What a list lacks, and what it has too much; that the counts differ, where this is all."""
    had, has, by = listing(old), listing(new), {(made.file.label, made.name): by for made, by in reach.cited.items()}
    for label, name in sorted(has - had):
        yield f'{PAGE}: {label}: {name} is not listed' + (f'; {by[label, name]} cites it' if (label, name) in by else '')
    for label, name in sorted(had - has):
        yield f'{PAGE}: {label}: {name} is listed, and no entry point comes to it'
    if had == has and old != new:
        yield f'{PAGE}: its counts or its layout are not up to date'


def unreached(reach):
    """Prints the definitions in specs/ that no entry point comes to."""
    left = {label: [made for made in dict.fromkeys(file.own.values()) if made not in reach.cited] for label, file in reach.files.items() if label not in THEOREMS}
    for label, several in left.items():
        if several:
            print(f'{label}: {len(several)} of {len(set(reach.files[label].own.values()))}, {len(lines_of(several))} lines: {", ".join(made.name for made in several)}')
    print('all: {} definitions, {} lines'.format(*counted(sum(left.values(), []))))


def main(words):
    reach = Reach()
    if words == ['--unreached']:
        return unreached(reach)
    new, (before, rest) = written(reach), read(PAGE).split(FROM)
    old, after = rest.split(TO)
    if words == ['--check']:
        wrong = list(differences(reach, old, new))
        print('\n'.join(wrong) or f'{PAGE} lists every definition that an entry point comes to')
        return 1 if wrong else 0
    with open(PAGE, 'w', encoding='utf-8') as out:
        out.write(before + FROM + new + TO + after)
    print('written: ' + PAGE)
    return 0


if __name__ == '__main__':
    sys.exit(main(sys.argv[1:]))
