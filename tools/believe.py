#!/usr/bin/env python3
"""believe.py [ROOT] [--trace] [--text] [--files] [--guard]: what a reader must believe, definition by definition.

It follows what is cited, from
- the contracts of the public calls: every `pub use` and `pub fn` of points, boxes, encoder and exports, and every `pub fn` of the record_ crates but those
  that end in _for (these only serve the others there);
- the statements of the user's demands: the `pub` theorems of the files Demands, BoxDemands and EncoderDemands of crates/demands;
- with --trace the contracts of the trace: every `pub fn` of trace_replay, and of src/records.rt of trace_blocks; the program of ./trace runs them.
A definition (abbrev, unfoldable, record, data) is followed in full. A law is followed by its statement alone, and is not counted. A decider (a shut
definition `f` beside a law `f_says`) is followed by that law's statement: what it decides is believed, not how. A private abbreviation inside a file of the
demands is part of their statements.

It prints a line for each definition, with file and line, in the order of crates.txt, and counts definitions, lines (without comments and imports) and files.
--text prints the definitions whole, with their comments; --files a line for each file. --guard ends in 1, and prints only what is wrong, if a believed
definition is outside specs/Meaning.antt and specs/Meaning/ of its crate."""
import re
import sys
from tree import Decl, Source, Tree, asked, read

CALLS = 'points', 'boxes', 'encoder', 'exports'
RECORDS = 'record_deferred', 'record_insert', 'record_maintain', 'record_get', 'record_query'
TRACE = ('trace_replay', 'lib'), ('trace_blocks', 'records')
DEMANDS = 'demands', ('Demands', 'BoxDemands', 'EncoderDemands')
# what a statement ends in
CLAIM = re.compile(r'(^|\s)(≡|≤|<|Says|Dec|⊥|⊎|×|T)(\s|$)')


def handed_out(tree, crate, module='lib', only=None):
    """(name, contract, Source) of the functions that a crate hands out, `pub use` followed."""
    lines = tree.src.get((crate, module)) or []
    source = Source(lines)
    for name, (pub, text) in source.fns.items():
        if only == name or only is None and pub:
            yield name, text, source
    for line in lines:
        m = re.match(r'pub use ([\w:]+)::(\w+);', line)
        if m and only in (None, m[2]):
            path = m[1].split('::')
            inside = (crate, path[0]) in tree.src
            yield from handed_out(tree, *(crate, '.'.join(path)) if inside else (path[0], '.'.join(path[1:]) or 'lib'), m[2])
        if (m := re.match(r'(?:pub )?mod (\w+);', line)) and only is None and ('pub' in line or crate == 'exports'):
            yield from handed_out(tree, crate, m[1])


def theorems(tree):
    return [d for key, f in tree.files.items() if key[0] == DEMANDS[0] and key[2].split('.')[-1] in DEMANDS[1]
            for d in f.decls.values() if d.pub and d.kind == 'law']


def roots(tree, trace):
    """(the declarations that are cited, number of calls, number of theorems)."""
    cited, calls = set(), 0
    for crate, module in [(c, 'lib') for c in CALLS + RECORDS] + list(TRACE if trace else ()):
        for name, text, source in handed_out(tree, crate, module):
            if not (crate in RECORDS and name.endswith('_for')):
                calls += 1
                cited |= asked(tree, source, text)
    return cited | set(theorems(tree)), calls, len(theorems(tree))


def claims(tree, decl):
    """Whether a shut declaration is a law: its type ends in an equation, an order, or in something whose own type is a row of arguments to Type."""
    sig = ' '.join(decl.split()[0])
    end, depth = '', 0
    for word in re.findall(r'[(){}]|[^\s(){}]+', sig):
        depth += (word in '({') - (word in ')}')
        end = '' if word == '→' and depth == 0 else end + ' ' + word
    if CLAIM.search(re.sub(r'[({][^(){}]*[)}]', '', end)):
        return True
    head = re.search(r'[^\s(){}]+', end.split(' : ')[-1])
    meant = head and tree.meaning(decl.file, head[0])
    return isinstance(meant, Decl) and bool(re.search(r'→ Type \d|\) : Type \d', ' '.join(meant.split()[0])))


def decider(tree, decl):
    """The law that says what a shut definition decides."""
    if decl.kind != 'law' or decl.name.endswith('_says'):
        return None
    files = [decl.file] + [f for k, f in tree.files.items() if k[0] == decl.file.key[0]]
    return next((f.decls[decl.name + '_says'] for f in files if decl.name + '_says' in f.decls), None)


def resolve(tree, decl, words):
    return {d for w in words if isinstance(d := tree.meaning(decl.file, w), Decl)}


def closure(tree, start):
    """(definitions, laws and deciders by statement) that must be believed."""
    defs, stated, todo, promised = set(), set(), list(start), set(theorems(tree))
    while todo:
        decl = todo.pop()
        if decl in defs or decl in stated:
            continue
        said, whole = tree.cited(decl)
        says = decider(tree, decl)
        if decl.kind == 'law' and (decl in promised or says or claims(tree, decl)):
            stated.add(decl)
            todo += resolve(tree, decl, said) | ({says} if says else set())
        else:
            defs.add(decl)
            todo += resolve(tree, decl, whole)
    own = {d for d in defs if not d.pub and d.file in {t.file for t in promised}}
    return defs - own, stated | own


def in_meaning(decl):
    return decl.file.key[1] == 'specs' and decl.file.key[2].split('.')[0] == 'Meaning'


def lines(decls):
    return sum(len(d.code()) for d in decls)


def count(decls):
    return f'{len(decls)} definitions in {lines(decls)} lines, {len({d.file for d in decls})} files'


def show(tree, decls, how):
    crates = [l.split(':')[0].split()[0] for l in read(f'{tree.root}/crates.txt') if ':' in l and not l.startswith('#')]
    for file in sorted({d.file for d in decls}, key=lambda f: (crates.index(f.key[0]), f.path)):
        there = sorted((d for d in decls if d.file is file), key=lambda d: d.line)
        if how == '--files':
            print(f'{file.path}: {" ".join(d.name for d in there)}')
        for decl in there if how != '--files' else []:
            print(f'{file.path}:{decl.line}: {decl.name}')
            if how == '--text':
                heads = [l for b in decl.chain() for l in b.head]
                print('\n'.join(decl.comments + heads + decl.lines) + '\n')


def main():
    words = [a for a in sys.argv[1:] if not a.startswith('--')]
    tree = Tree(words[0] if words else '.')
    start, calls, demands = roots(tree, '--trace' in sys.argv)
    defs, stated = closure(tree, start)
    outside = {d for d in defs if not in_meaning(d)}
    show(tree, outside if '--guard' in sys.argv else defs, next((h for h in ('--text', '--files') if h in sys.argv), ''))
    print(f'{calls} public calls, {demands} theorems: {count(defs)}; {len(stated)} laws and deciders by statement; outside Meaning: {count(outside)}')
    sys.exit(1 if '--guard' in sys.argv and outside else 0)


if __name__ == '__main__':
    main()
