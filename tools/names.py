#!/usr/bin/env python3
"""Holds the documents to the tree and to a screen. No line is wider than 160, but in docs/PORT.md and docs/DESIGN-PASS.md, which set clauses side by
side. In docs/PROMISES.md and docs/WORDS.md every file that they name is there, and every name in backticks that stands with a file is declared in it; a cell
of a table, or a point below a point of a list, is read part by part, parted by semicolons. Prints what is not so, and ends in 1 then."""
import glob
import os
import re
import sys

os.chdir(os.path.join(os.path.dirname(os.path.abspath(__file__)), '..'))
DOCUMENTS = 'docs/PROMISES.md', 'docs/WORDS.md'
FILE = re.compile(r'([a-z_]+)/((?:specs|proofs/laws|src|Meaning|Inner|laws)(?:/[A-Za-z0-9_.]+)+|src)')
# how the documents call these folders
FOLDERS = {'Meaning': 'specs/Meaning', 'Inner': 'specs/Inner', 'laws': 'proofs/laws'}
# a further file of the same folder, by its name alone: "demands/specs/Demands and BoxDemands"
FURTHER = re.compile(r'(?:,| and) ([A-Z][A-Za-z]+)(?=[ ,:.()]|$)')
# words in backticks that are no names: lines of the trace, words of the language
WORDS = {'requires', 'ensures', 'cell', 'main', 'new', 'answer'}
texts = {}


def text_of(file):
    if file not in texts:
        with open(file) as f:
            texts[file] = f.read()
    return texts[file]


def find(crate, rest):
    """The files that this names: one, or all of `src`."""
    first, slash, last = rest.partition('/')
    base = f'crates/{crate}/{FOLDERS.get(first, first)}{slash}{last}'
    if rest == 'src':
        return sorted(glob.glob(base + '/*.rt'))
    return [f for f in (base, base + '.antt', base + '.rt') if os.path.isfile(f)]


def declares(file, name):
    n = re.escape(name)
    if file.endswith('.rt'):
        return re.search(rf'\b(fn|struct|enum|const|type) {n}\b|pub use [a-z_:]*\b{n};', text_of(file))
    return re.search(rf'^\s*(abbrev |unfoldable |pub |record |data )*{n}( |$)', text_of(file), re.M)


def wrong_in(part):
    """What a part of a cell says that is not so."""
    files = []
    for named in FILE.finditer(part):
        found = find(*named.groups())
        if not found:
            yield f'there is no {named[0]}'
            continue
        folder = os.path.dirname(found[0])
        further = [f'{folder}/{m[1]}.antt' for m in FURTHER.finditer(part[named.end():])]
        files += found + [f for f in further if os.path.isfile(f)]
    for name in re.findall(r'`([^` /:.]+)`', part) if files else []:
        if name not in WORDS and not any(declares(f, name) for f in files):
            yield f'{name} is not in {", ".join(files)}'


def cells(lines):
    """Each cell of a table but the first of its row, and each point below a point, whole, with the number of its line."""
    point = None
    for number, line in enumerate(lines, 1):
        if point and not line.startswith('    '):
            yield point
            point = None
        if line.startswith('|'):
            yield from ((number, cell) for cell in line.split('|')[2:])
        elif line.startswith('  - '):
            point = number, line[4:].strip()
        elif point:
            point = point[0], f'{point[1]} {line.strip()}'
    if point:
        yield point


def wrong_lines(document):
    with open(document) as lines:
        for number, cell in cells(lines):
            for part in cell.split(';'):
                for what in wrong_in(part):
                    yield f'{document}:{number}: {what}'


def wide_lines(document):
    with open(document) as lines:
        for number, line in enumerate(lines, 1):
            if len(line) > 161:
                yield f'{document}:{number}: {len(line) - 1} wide'


wrong = [line for document in DOCUMENTS for line in wrong_lines(document)]
wrong += [line for document in ['README.md', 'beside/README.md'] + sorted(set(glob.glob('docs/**/*.md', recursive=True)) - {'docs/PORT.md', 'docs/DESIGN-PASS.md'}) for line in wide_lines(document)]
print('\n'.join(wrong) if wrong else f'every name in {" and ".join(DOCUMENTS)} is where it says')
sys.exit(bool(wrong))
