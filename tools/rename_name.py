#!/usr/bin/env python3
"""Renames declarations of specs/ and proofs/, and every use that means them, all at once.

    rename_name.py CRATE FILE OLD NEW     as in: rename_name.py box_set specs/Meaning/SetAabb moved boxMoved
    rename_name.py LIST                   LIST has such lines; what follows a # is not read

A word is changed where the imports of its file make it mean the declaration: in clauses, signatures, `module _` heads, `unfolding` lines, import lists,
behind the name of its module, and in the contracts of src/. What a pattern, a λ, a `where` or a parameter binds under the same name is not touched, nor
are fields and constructors. Mended too: must-fail texts of changed lines, comments of changed files that quote the word in backticks or tell it in a table,
docs/PROMISES.md and docs/WORDS.md where the name stands with its file. All is refused where NEW is a word of a file that uses OLD. Prints the words OLD
that changed files still have, to be looked at. Run rt fmt, names.py and imports.py --same OTHER --renamed LIST afterwards."""
import glob
import os
import re
import sys
from tree import FN, MARK, USE, Block, File, Source, Tree, Words, contract, plain, read, sides

DOCUMENTS = 'docs/PROMISES.md', 'docs/WORDS.md'


def word(*names):
    """A pattern for words that stand alone or behind the name of a module; no fields."""
    return rf'(?<![^\s(){{}}.,;"⌜⌝])(?<![\s)}}]\.)(?:{"|".join(map(re.escape, names))})(?![^\s(){{}}.,;"⌜⌝])'


def listed(args):
    """The renames: (key of the file, old name, new name)."""
    for line in read(args[0]) if len(args) == 1 else [' '.join(args)]:
        if line := line.split('#')[0].split():
            yield (line[0], *line[1].replace('/', '.').split('.', 1)), line[2], line[3]


class At(str):
    """A word as it is read, with the mark behind it."""

    def __new__(cls, text):
        self, found = super().__new__(cls, plain(text)), MARK.search(text)
        self.mark = found and found[0]
        return self


class Places(Words):
    """Finds the marks behind the words that mean a declaration with a new name."""

    def __init__(self, tree, file, new):
        super().__init__(tree, file)
        self.new, self.own, self.hits = new, None, {}

    def words(self, text):
        return [At(w) for w in super().words(text)]

    def take(self, at):
        meant = self.tree.meaning(self.file, at)
        if at.mark and meant in self.new and at.split('.')[-1] == meant.name:
            self.hits[at.mark] = self.new[meant]

    def clause(self, lines, bound, name):
        if name and self.own:
            self.hits.update({w.mark: self.own for w in self.words(sides('\n'.join(lines))[0]) if w == name})
        super().clause(lines, bound, name)

    def items(self, items):
        """Declarations, each as Tree.cited reads it."""
        for item in items:
            if isinstance(item, Block):
                self.items(item.items)
                continue
            (sig, unfolded, clauses), bound, name = item.split(), set(), At(item.name)
            self.own = self.new.get(self.file.decls[name])
            self.hits.update({name.mark: self.own} if self.own else {})
            for block in item.chain():
                self.text(' '.join(block.head)[len('module _'):], set(bound))
                bound |= block.bound
            self.signature('\n'.join(sig).replace(item.name, '', 1), bound, item.kind)
            for at in map(At, unfolded):
                self.take(at)
            for clause in clauses:
                self.clause(clause, bound, name)


def is_code(line):
    return not USE.match(line) and not line.lstrip().startswith(('--', '//'))


class Change:
    """What the renames do to one file: on each line the words that change, and the lines after it."""

    def __init__(self, tree, path, file, lines, new):
        self.path, self.lines, olds = path, lines, sorted({d.name for d in new})
        marks, self.mark = iter(map(chr, range(0xe000, 0xf900))), re.compile(rf'({"|".join(map(re.escape, olds))})({MARK.pattern})')
        marked = [re.sub(word(*olds), lambda m: m[0] + next(marks), l) if is_code(l) else l for l in lines]
        places = Places(tree, file, new)
        if isinstance(file, File):
            places.items(File(path, file.key, marked).items)
        for i, line in enumerate(marked if isinstance(file, Source) else []):
            if FN.match(line):
                head = re.split(r'\n(?:\{| +requires | +ensures )', '\n'.join(lines[i:]))[0]
                places.text(contract(marked, i), set(re.findall(r'(\w+)\s*:', head)))
        self.hits = places.hits
        self.on = {u.line: {t: new[d] for t, _ in u.names if u.key and (d := tree.find(u.key, t)) in new and d.name == t} for u in file.uses}
        for i, line in enumerate(marked):
            self.on.setdefault(i, {m[1]: self.hits[m[2]] for m in self.mark.finditer(line) if m[2] in self.hits})
        self.changed = {old: name for pairs in self.on.values() for old, name in pairs.items()}
        self.after = [self.line(i, l) for i, l in enumerate(marked)]

    def line(self, i, line):
        if is_code(line):
            return self.mark.sub(lambda m: self.hits.get(m[2], m[1]), line)
        for old, name in (self.on[i] if USE.match(line) else self.changed).items():
            if USE.match(line):
                line = re.sub(rf'(?<=[{{,\s]){re.escape(old)}(?=[,\s}}])', name, line)
            else:  # in a table the next column stays
                line = re.sub(rf'^(\s*--     ){re.escape(old)}((?: \S+)*)( {{2,}})',
                              lambda m: f'{m[1]}{name}{m[2]}' + ' ' * max(2, len(m[3]) + len(old) - len(name)), line.replace(f'`{old}`', f'`{name}`'))
        return line

    def refused(self):
        """Where a new name is a word already: one line for each."""
        for name in sorted(set(self.changed.values())):
            for i, line in enumerate(self.lines, 1):
                m = USE.match(line)
                if is_code(line) and re.search(word(name), line) or m and name in re.findall(r'[^\s,]+', m[3] or ''):
                    yield f'{self.path}:{i}: {name} is a word here already'
                    break

    def left(self):
        """Where an old name is still a word, in another meaning."""
        for i, line in enumerate(self.after if self.path.endswith('.antt') else [], 1):
            yield from (f'{self.path}:{i}: {old} is left: {line.strip()[:100]}' for old in self.changed if is_code(line) and re.search(word(old), line))


def edit(path, by_path):
    """A must-fail edit, with the words that change on the line that it edits."""
    change, pairs = None, {}
    for line in read(path):
        if line.startswith('file: '):
            change = by_path.get(f'{path.split("/must-fail/")[0]}/{line[6:]}')
        elif line.startswith('old: ') and change:
            pairs = next((change.on[i] for i, l in enumerate(change.lines) if line[5:] in l), {})
        for old, name in pairs.items() if line.startswith(('old: ', 'new: ')) and change else ():
            line = re.sub(word(old), name, line)
        yield line


def document(text, new):
    """A document, with the new names in each part of a cell or point where the old ones stand with their file."""
    parts = re.split(r'(;|\||\n(?=\s*- |\n|\|))', text)
    for decl, name in new.items():
        (crate, first, module), old = decl.file.key, f'`{decl.name}`'
        folder, slash, base = module.replace('.', '/').rpartition('/')
        file = re.compile(rf'(?<![\w/]){crate}/(?:{first}/)?{folder}{slash}(?:\w+(?:,| and)\s+)*{base}(?!\w)')
        parts = [p.replace(old, f'`{name}`') if file.search(p) else p for p in parts]
    return ''.join(parts)


def main():
    args = sys.argv[1:]
    if len(args) not in (1, 4):
        raise SystemExit(__doc__)
    renames = list(listed(args))
    os.chdir(os.path.join(os.path.dirname(os.path.abspath(__file__)), '..'))
    tree = Tree('.')
    wrong = [f'there is no {old} in {"/".join(key)}' for key, old, _ in renames if key not in tree.files or old not in tree.files[key].decls]
    new = {tree.files[key].decls[old]: name for key, old, name in renames} if not wrong else {}
    found = [(f.path, f, f.raw) for f in tree.files.values()]
    found += [(f'./crates/{crate}/src/{module.replace(".", "/")}.rt', Source(lines), lines) for (crate, module), lines in tree.src.items()]
    some = re.compile(word(*{old for _, old, _ in renames}))
    changes = [c for path, f, lines in found if any(map(some.search, lines)) and (c := Change(tree, path, f, lines, new)).changed] if new else []
    wrong += [line for c in changes for line in c.refused()]
    if wrong:
        raise SystemExit('\n'.join(wrong))
    by_path = {c.path: c for c in changes}
    after = {c.path: c.after for c in changes} | {p: list(edit(p, by_path)) for p in sorted(glob.glob('./crates/*/must-fail/*.edit'))}
    after |= {p: document('\n'.join(read(p)), new).split('\n') for p in DOCUMENTS}
    after = {p: lines for p, lines in after.items() if lines != read(p)}
    for path, lines in after.items():
        with open(path, 'w', encoding='utf-8') as f:
            f.write('\n'.join(lines))
    look = [line for c in changes for line in c.left()]
    print('\n'.join(look + [f'{len(new)} names in {len(after)} files; {len(look)} lines to look at']))


if __name__ == '__main__':
    main()
