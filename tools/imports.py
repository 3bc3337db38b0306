#!/usr/bin/env python3
"""imports.py [ROOT] [--unused] [--same OTHER [--renamed LIST]]: holds every import of crates/ to the tree, without a prover, in seconds.

Every module path is there (a file, what a crate declares, or what a function's proof has), every name is declared there and `pub`, none is brought twice
or declared beside it, the crate stands in crates.txt among what the other stands on, no file of specs/ imports its own proofs/, no imports go round,
every file is listed by its node and every `pub mod` has its file, each must-fail edit finds its text once. --unused also tells names that a file brings
and does not use; --same that each declaration cites the same as in the tree OTHER, as after a move, or after the renames of LIST (rename_name.py). Prints
what is not so, and ends in 1 then."""
import glob
import os
import re
import sys
from collections import Counter
from rename_name import listed
from tree import Decl, OWN, Source, Tree, Words, read


def standing(root):
    deps = {}
    for line in read(f'{root}/crates.txt'):
        crate, colon, rest = line.split('#')[0].partition(':')
        if colon:
            deps[crate.split()[0]] = set(rest.split())
    return deps


def wrong_use(tree, crate, part, use):
    """What one line imports that is not there."""
    if use.path.split('.')[0] != 'Rattle' or use.path.split('.')[1] not in OWN:
        return
    key = use.key
    if key is None:
        name = use.path.split('.declared.')[-1].split('.')
        owner = use.path.split('.')[1]
        if not any(re.search(rf'\b(struct|enum) {n}\b', tree.code(owner)) for n in name):
            yield f'no struct {name[0]} in {owner}'
        return
    if key[0] != crate and key[0] not in tree.deps.get(crate, ()):
        yield f'{crate} does not stand on {key[0]}'
    if key[0] == crate and part == 'specs' and key[1] == 'proofs':
        yield 'specs/ cites its own proofs/'
    if key not in tree.files:
        words = '|'.join(re.escape(w.lstrip('+')) for w in key[2].split('.'))
        if key[1] != 'proofs' or not re.search(rf'\b(?:fn|struct|enum|::)\s*(?:{words})\b', tree.code(key[0])):
            yield f'there is no {key[1]}/{key[2].replace(".", "/")} in {key[0]}'
        return
    for there, _ in use.names:
        found = tree.find(key, there)
        if not found and tree.passed(key, there):
            continue
        if not found:
            yield f'{there} is not in {tree.files[key].path}'
        elif not found.pub:
            yield f'{there} is not pub in {tree.files[key].path}'


def wrong_file(tree, crate, part, file, unused):
    seen = {}
    for use in file.uses:
        for what in wrong_use(tree, crate, part, use):
            yield use.line, what
        for _, here in use.names + ([(0, use.alias + '.')] if use.alias else []):
            if here in seen:
                yield use.line, f'{here} is brought twice'
            if here in file.decls:
                yield use.line, f'{here} is brought and declared'
            seen[here] = use.line
    if unused:
        for name, line in seen.items():
            if not used(tree, file, name):
                yield line, f'{name} is not used'


def used(tree, file, name):
    if not hasattr(file, 'words'):
        words = Words(tree, file)
        if isinstance(file, Source):
            words.text(file.cited, set())
        for decl in file.decls.values():
            words.found |= tree.cited(decl)[1]
        file.words = words.found | {w.split('.')[0] + '.' for w in words.found if '.' in w}
    return name in file.words or name.startswith('syntax ') or not file.decls and not isinstance(file, Source)


def rounds(tree):
    """Files whose imports come back to them."""
    state = {}

    def visit(key):
        state[key] = 1
        for use in tree.files[key].uses:
            if use.key in tree.files and state.get(use.key) == 1:
                yield f'{tree.files[key].path}: imports go round with {use.path}'
            elif use.key in tree.files and use.key not in state:
                yield from visit(use.key)
        state[key] = 2

    for key in tree.files:
        if key not in state:
            yield from visit(key)


def wrong_nodes(tree):
    for (crate, part, module), file in tree.files.items():
        up, _, name = module.rpartition('.')
        node = tree.files.get((crate, part, up or 'Lib'))
        fn = part == 'proofs' and node is None or part == 'proofs' and name in ('Proof', 'Met', 'Brackets')
        if module != 'Lib' and not fn and (node is None or name not in node.mods):
            yield f'{file.path}: is not listed by its node'
        for mod in file.mods:
            if (crate, part, mod if module == 'Lib' else f'{module}.{mod}') not in tree.files:
                yield f'{file.path}: there is no {mod}'
        if len({m.lower() for m in file.mods}) < len(file.mods):
            yield f'{file.path}: names that differ only in the case of their letters, or are listed twice'


def wrong_edits(root):
    for path in sorted(glob.glob(f'{root}/crates/*/must-fail/*.edit')):
        file = None
        for line in read(path):
            if line.startswith('file: '):
                file = f'{path.split("/must-fail/")[0]}/{line[6:]}'
                if not os.path.isfile(file):
                    yield f'{path}: there is no {file}'
            elif line.startswith('old: ') and os.path.isfile(file or '') and open(file, encoding='utf-8').read().count(line[5:]) != 1:
                yield f'{path}: its text is not once in {file}'


def meanings(root, renames=()):
    """What each declaration says, by the names of what it cites: the same before and after a move. What has a new name is called by it."""
    tree, found, new = Tree(root), Counter(), {(key, old): name for key, old, name in renames}

    def called(decl):
        return new.get((decl.file.key, decl.name), decl.name)

    for (crate, part, module), file in tree.files.items():
        for decl in file.decls.values():
            cited = {tree.meaning(file, w) for w in tree.cited(decl)[1]}
            names = sorted({(d.file.key[0], called(d)) if isinstance(d, Decl) else ('', d.path) for d in cited if d})
            found[crate, called(decl), decl.kind if decl.kind in ('record', 'data') else '', *(n for pair in names for n in pair)] += 1
    return found


def parted(root, other, renames):
    """Declarations that cite something else in the other tree."""
    a, b = meanings(root), meanings(other, renames)
    for key in sorted((a - b).keys() | (b - a).keys()):
        yield f'{key[0]}: {key[1]} cites something else, or is in one tree only'


def wrong(root, unused):
    tree = Tree(root)
    tree.deps = standing(root)
    for (crate, part, _), file in tree.files.items():
        for line, what in wrong_file(tree, crate, part, file, unused):
            yield f'{file.path}:{line + 1}: {what}'
    for (crate, module), lines in tree.src.items():
        for line, what in wrong_file(tree, crate, 'src', Source(lines), unused):
            yield f'{root}/crates/{crate}/src/{module.replace(".", "/")}.rt:{line + 1}: {what}'
    yield from rounds(tree)
    yield from wrong_nodes(tree)
    yield from wrong_edits(root)


if __name__ == '__main__':
    args = [a for a in sys.argv[1:] if not a.startswith('--')]
    sys.setrecursionlimit(10000)
    renames = list(listed([args.pop()])) if '--renamed' in sys.argv else []
    other = args.pop() if '--same' in sys.argv else None
    found = list(wrong(args[0] if args else '.', '--unused' in sys.argv))
    found += list(parted(args[0] if args else '.', other, renames)) if other else []
    print('\n'.join(found) if found else 'every import is of something that is there')
    sys.exit(bool(found))
