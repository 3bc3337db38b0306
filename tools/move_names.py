#!/usr/bin/env python3
"""Moves declarations between files of specs/ and proofs/, and mends every import of the tree.

    move_names.py LIST                 LIST has lines  CRATE FILE NAME -> NEWFILE  as in: storage specs/Keyed filter -> specs/Meaning/Keyed
    move_names.py --house [CRATE..]    the house's order, for these crates or for all: of specs/ what must be believed (believe.py, with the trace) goes to
                                       specs/Meaning/, what contracts need besides to specs/Inner/, all else (laws, and what only they cite) to proofs/laws/
    --dry                              says what would move, and moves nothing

A declaration takes the comments over it along, and the `module _` blocks that it stands in. One that is cited from another file now becomes `pub`, and
`unfoldable` if an `unfolding` line there names it. A sibling of a `module _` block that is in another file now is given the block's parameters. A new file
has the imports that it needs and no more. Mended too: the node files, `ghost use` in src/, the `file:` lines of must-fail, and paths in README and docs/.
A file of specs/ cannot cite proofs/ of its own crate, so that a law stays in specs/Inner where a definition there needs it; where Meaning and Inner would
import each other, what Meaning needs stays with it. Definitions that docs/PROMISES.md names stay in specs/. Run imports.py and rt fmt afterwards."""
import glob
import os
import re
import sys
import textwrap
import believe
from tree import NAME, USE, Decl, Source, Tree, Use, asked, exactly, indent, key_of, path_of, read

WIDTH = 150
FOLDERS = {'Meaning': '-- What must be believed: what the public calls and the demands cite.', 'Inner': '-- What only inner contracts cite.',
           'laws': '-- The laws.', 'Lib': '-- The laws.'}
DOCUMENT = re.compile(r'(?<![\w/])(crates/)?([a-z_]+)/((?:specs|proofs/laws)(?:/[A-Za-z0-9_]+)+)(\.antt)?')
FURTHER = re.compile(r'((?:,| and) )([A-Z][A-Za-z]+)(?=[ ,:.();]|$)')


# ---- what goes where

def whole(tree, decl):
    return believe.resolve(tree, decl, tree.cited(decl)[1])


def defines(tree, decl):
    return decl.kind != 'law' or not believe.claims(tree, decl)


def promised(tree):
    """The definitions that docs/PROMISES.md names."""
    for point in points(read(f'{tree.root}/docs/PROMISES.md')):
        for part in ' '.join(l.strip() for l in point).split(';'):
            files = [tree.files.get((m[2], *m[3].replace('/', '.').split('.', 1))) for m in DOCUMENT.finditer(part)]
            for name in re.findall(r'`([^` ]+)`', part):
                yield from (f.decls[name] for f in files if f and name in f.decls and defines(tree, f.decls[name]))


def staying(tree, believed):
    """What stays in specs/: all that contracts cite, and what that needs."""
    todo = list(believed) + list(promised(tree))
    for lines in tree.src.values():
        source = Source(lines)
        todo += [d for _, text in source.fns.values() for d in asked(tree, source, text)]
    stay = set()
    while todo:
        decl = todo.pop()
        if decl not in stay and decl.file.key[1] == 'specs':
            stay.add(decl)
            todo += [d for d in whole(tree, decl) if d.file.key[0] == decl.file.key[0] or defines(tree, decl)] + openers(decl)
    return stay


def openers(decl):
    """What unfolds a shut declaration: it stands in the same file, so that the declaration stays shut."""
    return [d for d in decl.file.decls.values() if decl.kind == 'law' and opened('\n'.join(d.lines), decl.name)]


def together(tree, file, room):
    """Where the pieces Meaning and Inner of a file would import each other, what Meaning cites in Inner goes to Meaning."""
    def crossing(a, b):
        return {d for e in file.decls.values() if room[e] == a for d in whole(tree, e) if d.file is file and room[d] == b}

    def keep_shut():
        for decl in [d for r in ('Inner', 'Meaning') for d in room if room[d] == r]:
            room.update({d: room[decl] for d in openers(decl)})

    keep_shut()
    while crossing('Meaning', 'Inner') and crossing('Inner', 'Meaning'):
        for decl in crossing('Meaning', 'Inner'):
            room[decl] = 'Meaning'
    keep_shut()


def free(tree, taken, key, suffixes=('', 'Laws', 'More', 'Others')):
    """The first name for a new file that no other has."""
    for suffix in suffixes:
        new = (*key[:2], key[2] + suffix)
        if new not in tree.files and new not in taken:
            return new
    raise SystemExit(f'no name is free for {key}')


def house(tree, crates):
    """decl -> key of its new file."""
    believed, stated = believe.closure(tree, believe.roots(tree, True)[0])
    believed |= {d for d in stated if believe.decider(tree, d)}
    stay, dest = staying(tree, believed), {}
    for key, file in [(k, f) for k, f in tree.files.items() if k[1] == 'specs' and k[0] in crates]:
        room = {d: 'laws' if d not in stay else 'Meaning' if d in believed else 'Inner' for d in file.decls.values()}
        together(tree, file, room)
        top, base = key[2].split('.')[0], key[2].split('.')[-1]
        if base in ('Meaning', 'Inner'):
            base = key[0].title().replace('_', '')
        for place in sorted(set(room.values())):
            if place != top:
                short = base.removesuffix('Laws') or base
                short = short if place != 'laws' and (key[0], 'specs', short) not in tree.files else base
                new = (key[0], 'proofs', f'laws.{base}') if place == 'laws' else (key[0], 'specs', f'{place}.{short}')
                new = free(tree, dest.values(), new)
                dest.update({d: new for d in room if room[d] == place})
    return dest


def listed(tree, path):
    dest = {}
    for line in filter(str.strip, read(path)):
        crate, file, name, new = re.fullmatch(r'(\S+) (\S+) (\S+) -> (\S+)', line.strip()).groups()
        found = tree.find((crate, *file.replace('/', '.').split('.', 1)), name)
        if not found:
            raise SystemExit(f'there is no {name} in {crate}/{file}')
        dest[found] = (crate, *new.replace('/', '.').split('.', 1))
    return dest


# ---- the marks, and the parameters of blocks

def opened(text, name):
    return re.search(rf'(^|\n)\s*unfolding [^\n]*(?<=\s){re.escape(name)}(?=\s|$)|unfold [^()]*(?<=\s){re.escape(name)}\s[^()]*in\s', text)


def mark(tree, moves):
    """Marks what is cited from another piece of its file."""
    todo = []
    for file in moves.files:
        for decl in file.decls.values():
            for cited in whole(tree, decl):
                if cited.file is file and moves.at(cited) != moves.at(decl):
                    shut = not {'abbrev', 'unfoldable'} & set(cited.marks) and cited.kind == 'law'
                    if shut and opened('\n'.join(decl.lines), cited.name):
                        cited.marks.insert(0, 'unfoldable')
                        todo.append(cited)
                    elif not cited.pub:
                        todo.append(cited)
    seen = set()
    while todo:  # what others see may name nothing private
        decl = todo.pop()
        if decl in seen:
            continue
        seen.add(decl)
        decl.marks = decl.marks + ([] if decl.pub else ['pub'])
        words = tree.cited(decl)[1 if {'abbrev', 'unfoldable'} & set(decl.marks) or decl.kind != 'law' else 0]
        todo += [d for d in believe.resolve(tree, decl, words) if d.file is decl.file and not d.pub]
    for decl in seen:
        remark(decl)


def remark(decl):
    """Writes the marks of a declaration into its text."""
    at = next(i for i, l in enumerate(decl.lines) if l.strip() and not l.strip().startswith('--'))
    text = re.sub(r'^(?:(?:unfoldable|abbrev|pub) )*', '', decl.lines[at].strip())
    marks = [m for m in ('unfoldable', 'abbrev', 'pub') if m in decl.marks]
    decl.lines[at] = ' ' * decl.base + ' '.join(marks + [text])
    if decl.kind == 'record':
        decl.lines = [re.sub(rf'^(\s+)(?=(?!pub ){NAME} )', r'\1pub ', l) if indent(l) == decl.base + 2 and ' : ' in l else l for l in decl.lines]


def with_parameters(text, name, params):
    """name, which had the parameters of its block, is given them."""
    def given(m):
        before = text[:m.start()].rstrip()
        line = text[text.rfind('\n', 0, m.start()) + 1:m.start()]
        if re.match(r'\s*unfolding\s', line) or re.search(r'unfold [^()]*$', line):
            return m[0]
        head = not before or before[-1] in '(=:,;{⌜.→≡≤<×∙+∷&|$' or before.endswith((' in', ' λ'))
        return f'{name} {params}' if head else f'({name} {params})'

    return re.sub(exactly(name), given, text)


def pass_parameters(tree, moves):
    for file in moves.files:
        for decl in file.decls.values():
            key = moves.at(decl)
            others = [d for d in whole(tree, decl) if d.file is file and moves.at(d) != key and d.name != decl.name]
            for cited in others:
                params = parameters(decl.chain(), cited)
                if params:
                    decl.lines = with_parameters('\n'.join(decl.lines), cited.name, params).split('\n')
                    moves.given.add(f'{file.path}: {cited.name} is given {params} in {decl.name}')
            for block in decl.chain():
                for cited in [d for d in others if parameters(block.chain()[:-1], d)] if key not in block.heads else []:
                    head = '\n'.join(block.heads.get(key, block.head))
                    block.heads[key] = with_parameters(head, cited.name, parameters(block.chain()[:-1], cited)).split('\n')


def parameters(chain, cited):
    """The parameters of the blocks of a chain that a declaration stands in too."""
    return ' '.join(p for b in chain if b in cited.chain() for p in b.explicit)


# ---- writing

class Moves:
    def __init__(self, tree, dest):
        self.tree, self.dest, self.given, self.hand = tree, {d: k for d, k in dest.items() if d.file.key != k}, set(), set()
        self.files = sorted({d.file for d in self.dest}, key=lambda f: f.key)
        self.written, self.gone = {}, set()

    def at(self, decl):
        return self.dest.get(decl, decl.file.key)

    def pieces(self, file):
        keys = []
        for decl in file.decls.values():
            if self.at(decl) not in keys:
                keys.append(self.at(decl))
        return keys


def use_lines(path, names, marks='', end=''):
    """`use` lines for pairs of names, none too wide."""
    texts, line = [], ''
    for there, here in names:
        name = there if there == here else f'{there} as {here}'
        if line and len(f'{marks}use {path}.{{{line}, {name}}}{end}') > WIDTH:
            texts, line = texts + [line], ''
        line = f'{line}, {name}' if line else name
    return [f'{marks}use {path}.{{{t}}}{end}' for t in texts + [line]]


def needed(tree, moves, file, key):
    """The `use` lines of one piece of a file, in the order of the file's own."""
    decls = [d for d in file.decls.values() if moves.at(d) == key]
    words = sorted(set().union(*[tree.cited(d)[1] for d in decls]))
    wanted, aliases = {}, {}
    for word in words:
        meant = tree.meaning(file, word)
        if word in file.decls or word in file.made:
            if moves.at(meant) != key:
                wanted.setdefault((len(file.raw), path_of(moves.at(meant))), []).append((meant.line, word, word))
        elif word in file.names:
            use, there = file.names[word]
            path = path_of(moves.at(meant)) if isinstance(meant, Decl) else use.path
            wanted.setdefault((use.line, path), []).append((use.names.index((there, word)), there, word))
        elif '.' in word and isinstance(meant, (Decl, Use)):
            use = file.aliases[word.split('.')[0]]
            aliases.setdefault(use, {}).setdefault(path_of(moves.at(meant)) if isinstance(meant, Decl) else use.path, set()).add(word)
    lines = [(at, l) for (at, path), names in wanted.items() for l in use_lines(path, [(t, h) for _, t, h in sorted(names)])]
    for use, paths in aliases.items():
        for path, alias in renamed(use, paths, decls):
            lines.append((use.line, f'use {path}' + ('' if alias == path.split('.')[-1] else f' as {alias}')))
    order = sorted(lines, key=lambda l: l[0])
    return [l for _, l in order]


def renamed(use, paths, decls):
    """An alias of a file that is in pieces now: the piece with the most names keeps it, the others get one of their own."""
    for i, path in enumerate(sorted(paths, key=lambda p: -len(paths[p]))):
        alias = use.alias if i == 0 else use.alias + re.search(r'\.(Meaning|Inner|laws|\w+)\.', path + '.')[1].title()
        for decl in decls if i else []:
            for word in paths[path]:
                decl.lines = [re.sub(exactly(word), f'{alias}.{word.split(".", 1)[1]}', l) for l in decl.lines]
        yield path, alias


def rendered(moves, items, key):
    """The lines of those items that go to key."""
    out = []
    for item in items:
        if isinstance(item, Decl):
            lines = item.comments + item.lines if moves.at(item) == key else []
        else:
            inner = rendered(moves, item.items, key)
            first = first_decl(item)
            lines = (item.comments if first and moves.at(first) == key else []) + item.heads.get(key, item.head) + inner if inner else []
        if lines:
            out += ([''] if out else []) + lines
    return out


def first_decl(block):
    return next((i if isinstance(i, Decl) else first_decl(i) for i in block.items), None)


def write_pieces(tree, moves):
    todo = [(file, key) for file in moves.files for key in moves.pieces(file)]
    for file, key in sorted(todo, key=lambda p: p[1] != p[0].key):  # what stays first: others may come to it
        keys = moves.pieces(file)
        told = {'Inner': ['-- Here: what only inner contracts cite.'], 'laws': ['-- Here: the laws.']}.get(key[2].split('.')[0], []) if len(keys) > 1 else []
        mods = [f'pub mod {m}' for m in file.mods] if key == file.key else []
        uses, body = needed(tree, moves, file, key), rendered(moves, file.items, key)
        if key not in moves.written and key in tree.files and key != file.key:
            there = tree.files[key]
            moves.written[key] = mend_uses(tree, moves, there.uses, there.raw, key[0], False).rstrip('\n').split('\n')
        if key in moves.written:
            moves.written[key] = added(moves.written[key], uses, body, path_of(key))
        else:
            moves.written[key] = file.head + told + mods + uses + [''] * bool(uses or mods or file.head or told) + body
    moves.gone = {f.key for f in moves.files if f.key not in moves.written and not f.mods}


def added(lines, uses, body, own):
    """A file with further declarations: its imports are joined, and what it is itself now is imported no more."""
    lines = [l for l in lines if not l.startswith(f'use {own}.{{')]
    at = max((i + 1 for i, l in enumerate(lines) if USE.match(l)), default=0)
    at = at or next((i for i, l in enumerate(lines) if not l.startswith('--')), len(lines))
    have, new = {n for l in lines if USE.match(l) for n in Use(USE.match(l), 0).names}, []
    for use in [Use(USE.match(l), 0) for l in uses if not l.startswith(f'use {own}.{{')]:
        names = [n for n in use.names if n not in have]
        if use.alias and not any(USE.match(l) and Use(USE.match(l), 0).alias == use.alias for l in lines):
            new.append(f'use {use.path} as {use.alias}')
        new += use_lines(use.path, names) if names else []
    return lines[:at] + new + lines[at:] + [''] + body


def mend_uses(tree, moves, uses, lines, crate, ghost):
    """The import lines of a file that stays, after the move; its other lines where an alias is parted."""
    moved, out, body = {f.key for f in moves.files}, list(lines), {}
    for use in uses:
        if use.key not in moved:
            continue
        end, marks = ';' if ghost else '', use.marks
        if use.alias:
            words = set(re.findall(rf'(?<![^\s(){{}},;"⌜⌝]){re.escape(use.alias)}\.({NAME})', '\n'.join(lines)))
            paths = {}
            for word in words:
                if found := tree.find(use.key, word):
                    paths.setdefault(path_of(moves.at(found)), set()).add(f'{use.alias}.{word}')
            parts = list(renamed(use, paths, [stub := Stub(out)]))
            out = stub.lines
            out[use.line] = '\n'.join(f'{marks}use {p}' + ('' if a == p.split('.')[-1] else f' as {a}') + end for p, a in parts)
            continue
        groups = {}
        for there, here in use.names:
            groups.setdefault(path_of(moves.at(tree.find(use.key, there))), []).append((there, here))
        out[use.line] = '\n'.join(l for path, names in groups.items() for l in use_lines(path, names, marks, end))
    return '\n'.join(out)


class Stub:
    def __init__(self, lines):
        self.lines = list(lines)


def write(path, text):
    os.makedirs(os.path.dirname(path), exist_ok=True)
    with open(path, 'w', encoding='utf-8') as f:
        f.write(text.rstrip('\n') + '\n')


def file_of(tree, key):
    return f'{tree.root}/crates/{key[0]}/{key[1]}/{key[2].replace(".", "/")}.antt'


def write_all(tree, moves):
    for key, file in tree.files.items():
        if key not in moves.written and key not in moves.gone:
            text = mend_uses(tree, moves, file.uses, file.raw, key[0], False)
            if text != '\n'.join(file.raw):
                write(file.path, text)
    for (crate, module), lines in tree.src.items():
        text = mend_uses(tree, moves, Source(lines).uses, lines, crate, True)
        if text != '\n'.join(lines):
            write(f'{tree.root}/crates/{crate}/src/{module.replace(".", "/")}.rt', text)
    for key in moves.gone:
        os.remove(file_of(tree, key))
    for key, lines in moves.written.items():
        write(file_of(tree, key), '\n'.join(lines))
    nodes(tree, moves)


def nodes(tree, moves):
    """The node files list what is there now."""
    for key in moves.gone:
        up, _, name = key[2].rpartition('.')
        relist(file_of(tree, (key[0], key[1], up or 'Lib')), None, name)
    for key in sorted(moves.written, key=room):
        parts = key[2].split('.')
        for i, name in enumerate(parts):
            relist(file_of(tree, (key[0], key[1], '.'.join(parts[:i]) or 'Lib')), name, None)


def relist(path, name, gone):
    """A node file with one more `pub mod`, or one less."""
    lines = read(path) if os.path.exists(path) else [FOLDERS.get(os.path.basename(path)[:-5], '-- What stands together.')]
    lines = [l for l in lines if l != f'pub mod {gone}']
    if name and f'pub mod {name}' not in lines:
        at = max((i + 1 for i, l in enumerate(lines) if re.match('(pub )?mod ', l)), default=0)
        at = at or next((i for i, l in enumerate(lines) if not l.startswith('--')), len(lines))
        lines.insert(at, f'pub mod {name}')
    write(path, '\n'.join(lines))


# ---- must-fail and documents

def mend_edits(tree, moves):
    for path in glob.glob(f'{tree.root}/crates/*/must-fail/*.edit'):
        crate, lines, at = path.split('/crates/')[1].split('/')[0], read(path), None
        was = list(lines)
        for i, line in enumerate(lines):
            if line.startswith('file: '):
                at = i
                key = (crate, *line[6:].removesuffix('.antt').replace('/', '.').split('.', 1))
            elif line.startswith('old: ') and at is not None and key in {f.key for f in moves.files}:
                homes = [k for k in moves.pieces(tree.files[key]) if '\n'.join(moves.written[k]).count(line[5:]) == 1]
                if len(homes) != 1:
                    moves.hand.add(f'{path}: its text is not once in a piece of {key}')
                else:
                    lines[at] = f'file: {homes[0][1]}/{homes[0][2].replace(".", "/")}.antt'
        if lines != was:
            write(path, '\n'.join(lines))


def homes(moves, file, names, before, behind):
    """The paths of the pieces of a file that have these names, else of the piece with the most."""
    keys, decls = moves.pieces(file), file.decls
    named = [k for k in keys if any(n in decls and moves.at(decls[n]) == k for n in names)]
    if not named:
        named = sorted(keys, key=lambda k: (-sum(d.pub for d in decls.values() if moves.at(d) == k), room(k)))[:1]
    return ' and '.join(f'{before}{k[0]}/{k[1]}/{k[2].replace(".", "/")}{behind}' for k in named)


def mend_part(moves, part):
    """A part of a line of a document: each path becomes those of the pieces that have the names beside it."""
    names, files, folder = set(re.findall(r'`([^` ]+)`', part)), {f.key: f for f in moves.files}, None

    def path(m):
        nonlocal folder
        key = (m[2], *m[3].replace('/', '.').split('.', 1))
        folder = key[:2] + (key[2].rpartition('.')[0],)
        return homes(moves, files[key], names, m[1] or '', m[4] or '') if key in files else m[0]

    def further(m):
        key = folder and (*folder[:2], f'{folder[2]}.{m[2]}'.strip('.'))
        return m[1] + homes(moves, files[key], names, '', '') if key in files else m[0]

    return FURTHER.sub(further, DOCUMENT.sub(path, part)) if DOCUMENT.search(part) else part


def room(key):
    return ['specs.Meaning', 'specs.Inner'].index(k) if (k := f'{key[1]}.{key[2].split(".")[0]}') in ('specs.Meaning', 'specs.Inner') else 2


def points(lines):
    """The lines of a document, a point of a list with its further lines as one."""
    out = []
    for line in lines:
        if out and re.match(r'\s*- ', out[-1][0]) and re.match(r'\s+(?!- )\S', line):
            out[-1].append(line)
        else:
            out.append([line])
    return out


def mend_documents(tree, moves):
    for path in glob.glob(f'{tree.root}/docs/*.md') + [f'{tree.root}/README.md']:
        lines, new = read(path), []
        for point in points(lines):
            text = ' '.join([point[0]] + [l.strip() for l in point[1:]])
            mended = '|'.join(';'.join(mend_part(moves, p) for p in cell.split(';')) for cell in text.split('|'))
            if mended == text:
                new += point
            elif re.match(r'\s*- ', text):
                new += textwrap.wrap(mended, WIDTH, subsequent_indent=' ' * (indent(text) + 2), break_long_words=False, break_on_hyphens=False)
            else:
                new.append(mended)
        if new != lines:
            write(path, '\n'.join(new))


def main():
    words = [a for a in sys.argv[1:] if not a.startswith('--')]
    tree = Tree('.')
    dest = house(tree, words or {k[0] for k in tree.files}) if '--house' in sys.argv else listed(tree, words[0])
    moves = Moves(tree, dest)
    for file in moves.files if '--dry' in sys.argv else []:
        for key in moves.pieces(file):
            print(f'{file.path} -> {"/".join(key[1:]).replace(".", "/")}: {" ".join(d.name for d in file.decls.values() if moves.at(d) == key)}')
    if '--dry' not in sys.argv:
        mark(tree, moves)
        pass_parameters(tree, moves)
        write_pieces(tree, moves)
        mend_edits(tree, moves)
        mend_documents(tree, moves)
        write_all(tree, moves)
        print('\n'.join(sorted(moves.given) + [f'BY HAND: {w}' for w in sorted(moves.hand)]))
    print(f'{len(moves.dest)} declarations of {len(moves.files)} files')


if __name__ == '__main__':
    main()
