#!/usr/bin/env python3
"""headers.py [ROOT]: drops from the `use` lines of every file of crates/ the names that the file does not use, and from basics' specs/Words, which passes on
the toolchain's words that are met everywhere, those that no file brings. A word that is new there is added to Words by hand. Run it after files were written
or moved, then `rt fmt`; it changes nothing else, and nothing where all is so."""
import sys
from imports import used
from tree import Source, Tree

WORDS = 'basics', 'specs', 'Words'


def named(use, names):
    """The line of a use with these of its names."""
    tail = ';' if 'ghost' in use.marks else ''
    return f'{use.marks}use {use.path}.{{{", ".join(t if t == h else f"{t} as {h}" for t, h in names)}}}{tail}'


def kept(use, text, keep):
    """The line with the names that keep says of, or none."""
    names = [(there, here) for there, here in use.names if keep(here)]
    return text if names == use.names else named(use, names) if names else None


def whole(file, lines, keep, alone):
    """The lines of a file with what its own `use` lines bring and keep says of; alone says which modules stay."""
    uses, out = {u.line: u for u in file.uses}, []
    for i, text in enumerate(lines):
        use = uses.get(i)
        if use and use.names:
            text = kept(use, text, keep)
        elif use and not alone(use.alias + '.'):
            text = None
        if text is not None:
            out.append(text)
    return out


def write(path, lines):
    with open(path, 'w', encoding='utf-8') as f:
        f.write('\n'.join(lines))


def main(root):
    tree = Tree(root)
    files = [(f.path, f, f.raw) for k, f in tree.files.items() if k != WORDS]
    files += [(f'{root}/crates/{c}/src/{m.replace(".", "/")}.rt', Source(lines), lines) for (c, m), lines in tree.src.items()]
    brought = set()
    for path, file, lines in files:
        def needed(name, file=file):
            return used(tree, file, name) or any(here == name and 'pub' in u.marks for u in file.uses for _, here in u.names)

        new = whole(file, lines, needed, lambda name, file=file: used(tree, file, name))
        brought |= {there for u in file.uses if u.key == WORDS for there, here in u.names if needed(here)}
        if new != lines:
            write(path, new)
    words = tree.files[WORDS]
    write(words.path, whole(words, words.raw, brought.__contains__, lambda name: True))


if __name__ == '__main__':
    sys.setrecursionlimit(10000)
    main(sys.argv[1] if len(sys.argv) > 1 else '.')
