"""The tree as the other tools read it: every .antt file of crates/ as a header of `use` lines and a row of declarations, what each declaration cites,
and the contracts of the .rt files. Names are read exactly: imports with braces, `as`, `module _` blocks with their parameters, constructors, names with
operators; what a pattern, a λ or a signature binds is no citation. Used by believe.py, imports.py, move_names.py, rename_name.py."""
import os
import re

NAME = r'[^\s(){}.,;"⌜⌝]+'
WORD = re.compile(rf'(?P<field>(?<![^\s)}}])\.)?(?P<name>{NAME}(?:\.{NAME})*)')
DECL = re.compile(rf'((?:(?:unfoldable|abbrev|pub) )*)(?:(record|data) ({NAME})|({NAME})(?: \{{[^}}]*\}})? :(?=\s|$))')
USE = re.compile(r'((?:unfoldable |pub |ghost )*)use ([^{\s]+?)(?:\.\{(.*)\})?(?: as (\S+?))?;?$')
PATH = re.compile(r'Rattle\.(\w+)\.(specs|proofs)\.(.+)')
# the crates of the tree, which a Tree notes: other modules of Rattle are the toolchain's
OWN = set()
FN = re.compile(r'(pub )?(?:extern "C" )?fn (\w+)')
GROUP = re.compile(r'[({]([^(){}:.,;"]+?) :(?=\s)')
MARK = re.compile('[\ue000-\uf8ff]')


def read(path):
    with open(path, encoding='utf-8') as f:
        return f.read().split('\n')


def plain(text):
    """A text without the marks that rename_name.py puts behind words."""
    return MARK.sub('', text)


def exactly(word):
    """A pattern for a word that stands alone."""
    return rf'(?<![^\s(){{}},;"⌜⌝]){re.escape(word)}(?![^\s(){{}},;"⌜⌝])'


def indent(line):
    return len(line) - len(line.lstrip())


def key_of(path):
    """(crate, specs or proofs, module) of a path that names a file of crates/, else None."""
    m = PATH.fullmatch(path)
    return (m[1], m[2], m[3]) if m and m[1] in OWN and not m[3].startswith('declared') else None


def path_of(key):
    """How a file writes the module of key."""
    return f'Rattle.{key[0]}.{key[1]}.{key[2]}'


class Use:
    """A `use` line: names are pairs (name there, name here)."""

    def __init__(self, match, line):
        self.marks, self.path, self.alias, self.line = match[1], match[2], match[4], line
        if self.alias is None and match[3] is None:
            self.alias = self.path.split('.')[-1]
        pairs = [n.strip().split(' as ') for n in (match[3] or '').split(',') if n.strip()]
        self.names = [(p[0].strip(), p[-1].strip()) for p in pairs]
        self.key = key_of(self.path)


class Block:
    """A `module _ (..) where` with its declarations."""

    def __init__(self, head, parent, blank, comments, base):
        self.head, self.parent, self.blank, self.comments, self.items, self.base, self.heads = head, parent, blank, comments, [], base, {}
        text = plain(' '.join(head))
        self.bound = set(' '.join(GROUP.findall(text)).split())
        self.explicit = ' '.join(re.findall(r'(?:(?<=[\s(])|^)\(([^(){}:.,;"]+?) :(?=\s)', outer(text))).split()

    def chain(self):
        return (self.parent.chain() if self.parent else []) + [self]


def outer(text):
    """A telescope without what stands in brackets inside its groups, so that only its own binders are left."""
    out, depth = '', 0
    for c in text:
        depth -= c in ')}'
        if depth < 2 and not (c in '({' and depth == 1):
            out += c
        depth += c in '({'
    return out


class Decl:
    """A declaration: its lines, with the comments over it, and where it stands."""

    def __init__(self, match, file, block, line, blank, comments):
        self.marks, self.kind = match[1].split(), match[2] or ('def' if re.search('abbrev|unfoldable', match[1]) else 'law')
        self.name, self.file, self.block, self.line = match[3] or match[4], file, block, line
        self.blank, self.comments, self.lines, self.base = blank, comments, [], 0
        self.made = []

    @property
    def pub(self):
        return 'pub' in self.marks

    def code(self):
        return [l for l in self.lines if l.strip() and not l.strip().startswith('--')]

    def chain(self):
        return self.block.chain() if self.block else []

    def split(self):
        """(signature lines, unfolded names, clauses: each a list of lines)."""
        sig, unfolded, clauses = [], [], []
        for line in self.code():
            text = re.sub(r'(^|\s)--\s.*$', '', line)
            if indent(text) > self.base and not clauses and not unfolded or not sig:
                sig.append(text)
            elif text.strip().startswith('unfolding ') and not clauses:
                unfolded += text.split()[1:]
            elif indent(text) == self.base and not text.strip().startswith(')'):
                clauses.append([text])
            elif clauses:
                clauses[-1].append(text)
        return sig, unfolded, clauses


class File:
    def __init__(self, path, key, raw=None):
        self.path, self.key, self.decls, self.uses, self.mods, self.items, self.head, self.made = path, key, {}, [], [], [], [], {}
        self.raw = raw or read(path)
        i = self.header()
        self.body(i, 0, None, self.items)
        self.names = {here: (u, there) for u in self.uses for there, here in u.names}
        self.aliases = {u.alias: u for u in self.uses if u.alias}

    def header(self):
        """The comment on top, the use and mod lines; the first line of the rest."""
        i, end = 0, 0
        while i < len(self.raw) and self.raw[i].startswith('--'):
            i += 1
        self.head = self.raw[:i]
        for j in range(i, len(self.raw)):
            line = self.raw[j]
            m, mod = USE.match(line), re.match(r'(?:pub )?mod (\S+)', line)
            if m:
                self.uses.append(Use(m, j))
            elif mod:
                self.mods.append(mod[1])
            elif line.strip() and not line.startswith('--'):
                break
            end = j + 1 if m or mod else end
        if not self.uses and not self.mods:  # a comment over the first declaration is not the file's, where a blank line parts them
            return i
        return end

    def body(self, i, base, block, items):
        """Reads items at indentation base from line i on; ends where the indentation falls below it."""
        cur, blank, comments = None, False, []
        while i < len(self.raw):
            line = self.raw[i]
            at, text = indent(line), line.strip()
            if not text:
                blank, i = True, i + 1
                continue
            if at < base:
                break
            if text.startswith('--') and at <= base:
                cur, comments, i = None, comments + [line], i + 1
                continue
            m = DECL.match(text) if at == base else None
            if at == base and re.match(r'module _ .*', text):
                j = i
                while not self.raw[j].rstrip().endswith('where'):
                    j += 1
                inner = next(k for k in range(j + 1, len(self.raw)) if self.raw[k].strip())
                new = Block(self.raw[i:j + 1], block, blank, comments, base)
                items.append(new)
                i = self.body(inner, indent(self.raw[inner]), new, new.items)
                cur, blank, comments = None, self.raw[i - 1].strip() == '', []
                continue
            if m and not (cur and plain(cur.name) == plain(m[3] or m[4]) and not m[1]):
                cur = Decl(m, self, block, i + 1, blank, comments)
                cur.base, comments = base, []
                items.append(cur)
                self.decls[cur.name] = cur
            if cur:
                cur.lines += ([''] if blank and cur.lines else []) + [line]
                self.makes(cur, text, at)
            blank, i = False, i + 1
        if comments and items:
            items[-1].comments = items[-1].comments + comments
        return i

    def makes(self, decl, text, at):
        """A constructor belongs to its type."""
        m = re.match(rf'({NAME})((?: {NAME})*) :(?=\s|$)', text)
        if decl.kind == 'data' and at == decl.base + 2 and m:
            for name in (m[1] + m[2]).split():
                decl.made.append(name)
                self.made[name] = decl


class Tree:
    def __init__(self, root='.'):
        self.root, self.files, self.src = root, {}, {}
        OWN.update(os.listdir(f'{root}/crates'))
        for crate in sorted(OWN):
            for part in 'specs', 'proofs', 'src':
                base = f'{root}/crates/{crate}/{part}'
                for folder, _, names in os.walk(base):
                    for name in sorted(names):
                        path = os.path.join(folder, name)
                        module = os.path.relpath(path, base).rsplit('.', 1)[0].replace('/', '.')
                        if name.endswith('.antt'):
                            self.files[crate, part, module] = File(path, (crate, part, module))
                        elif name.endswith('.rt'):
                            self.src[crate, module] = read(path)
        self.cache = {}

    def find(self, key, name):
        """The declaration that a name of a module is, or makes it (a constructor)."""
        f = self.files.get(key)
        return f and (f.decls.get(name) or f.made.get(name))

    def passed(self, key, name):
        """The Use by which a module passes a name on."""
        use, there = self.files[key].names.get(name, (None, None)) if key in self.files else (None, None)
        return use and 'pub' in use.marks and (use.key and self.passed(use.key, there) or use)

    def code(self, crate):
        return '\n'.join('\n'.join(lines) for (c, _), lines in self.src.items() if c == crate)

    def meaning(self, file, word):
        """What a word of a file is: a declaration of the tree, a Use of something else, or None (bound, or Prim's)."""
        here = file.decls.get(word) or file.made.get(word)
        if here:
            return here
        if word in file.names:
            use, there = file.names[word]
            return use.key and (self.find(use.key, there) or self.passed(use.key, there)) or use
        if '.' in word:
            alias, rest = word.split('.', 1)
            if alias in file.aliases:
                use = file.aliases[alias]
                return use.key and self.find(use.key, rest.split('.')[0]) or use
        return None

    def cited(self, decl):
        """(by the statement, by the whole): words of its file that a declaration names."""
        if decl not in self.cache:
            words = Words(self, decl.file)
            sig, unfolded, clauses = decl.split()
            bound = set()
            for block in decl.chain():
                words.text(' '.join(block.head)[len('module _'):], set(bound))
                bound |= block.bound
            text = re.sub(rf'^\s*(?:(?:unfoldable|abbrev|pub) )*(?:(?:record|data) )?{re.escape(decl.name)}(?=\s)', '', '\n'.join(sig))
            words.signature(text, bound, decl.kind)
            said = set(words.found)
            words.found |= {u for u in unfolded if self.meaning(decl.file, u)}
            for clause in clauses:
                words.clause(clause, bound, decl.name)
            self.cache[decl] = (said - {decl.name}, words.found - {decl.name})
        return self.cache[decl]


class Words:
    """Collects the words of a text that mean something in a file."""

    def __init__(self, tree, file):
        self.tree, self.file, self.found = tree, file, set()
        if not hasattr(file, 'mixfix'):
            file.mixfix = {}
            for name in [n for n in [*file.decls, *file.made, *file.names] if '◌' in n]:
                for part in filter(None, name.split('◌')):
                    file.mixfix.setdefault(part, set()).add(name)
        self.mixfix = file.mixfix

    def words(self, text):
        text = re.sub(r'"(?:[^"\\]|\\.)*"', ' ', text)
        return [m['name'] for m in WORD.finditer(without_fields(text)) if not m['field']]

    def take(self, word):
        for name in self.mixfix.get(word, ()):
            self.found.add(name)
        if '.' in word and word.split('.')[0] not in self.file.aliases:  # a field of a value
            word = word.split('.')[0]
        if self.tree.meaning(self.file, word):
            self.found.add(word)

    def text(self, text, bound):
        bound = bound | binders(text)
        for word in self.words(text):
            if word.split('.')[0] not in bound or word.split('.')[0] in self.file.aliases and '.' in word:
                self.take(word)

    def signature(self, text, bound, kind):
        if kind in ('record', 'data'):
            fields = re.findall(rf'^\s+(?:pub )?((?:{NAME} )+):(?=\s|$)', plain(text), re.M)
            bound = bound | set(' '.join(fields).split())
        self.text(text, bound)

    def clause(self, lines, bound, name):
        """One clause of a definition, with its `where` block."""
        at = next((i for i, l in enumerate(lines) if re.search(r'(^|\s)where$', l.rstrip())), None)
        own, rest = (lines, []) if at is None else (lines[:at] + [re.sub(r'where\s*$', '', lines[at])], lines[at + 1:])
        left, right = sides('\n'.join(own))
        bound = set(bound)
        for word in self.words(left):
            meant = self.tree.meaning(self.file, word)
            if word != name and (word in self.mixfix or isinstance(meant, Use) or meant and word in meant.made):
                self.take(word)
            elif word != name:
                bound.add(word)
        groups = []
        for line in rest:
            if not groups or indent(line) <= indent(rest[0]) and not line.strip().startswith(')'):
                groups.append([])
            groups[-1].append(line)
        signed = [DECL.match(plain(g[0].strip())) for g in groups]
        bound |= {m[4] for m in signed if m and m[4]}
        self.text(right, bound)
        for group, m in zip(groups, signed):
            if m:
                self.text('\n'.join(group), bound)
            elif not group[0].strip().startswith('unfolding '):
                self.clause(group, bound, '')
            else:
                self.text(group[0].strip()[len('unfolding '):], set())


def sides(text):
    """A clause before and behind its `=`."""
    depth = 0
    for i, c in enumerate(text):
        depth += (c in '({') - (c in ')}')
        if c == '=' and depth == 0 and text[i - 1].isspace() and (i + 1 == len(text) or text[i + 1].isspace()):
            return text[:i], text[i + 1:]
    return text, ''


def without_fields(text):
    """A text without the names of the fields that a `record { .. }` gives."""
    out, at, open_ = '', 0, []
    for m in re.finditer(rf'record \{{|[{{}};]|(?<=[{{;])\s*{NAME}(?=\s=\s)', text):
        if m[0] in ('{', 'record {'):
            open_.append(m[0])
        elif m[0] == '}' and open_:
            open_.pop()
        elif m[0] not in '};' and open_ and open_[-1] == 'record {':
            out, at = out + text[at:m.start()], m.end()
    return out + text[at:]


def pattern(text):
    """The names that the binders of a λ bind; those with a type are GROUP's."""
    names, depth, skip = set(), 0, None
    for m in re.finditer(rf'[({{)}}]|(?<=\s):(?=\s)|{WORD.pattern}', text):
        if m[0] in '({':
            depth += 1
        elif m[0] in ')}':
            depth -= 1
            skip = None if skip is not None and depth < skip else skip
        elif m[0] == ':':
            skip = depth if skip is None else skip
        elif skip is None:
            names.add(m['name'])
    return names


def binders(text):
    text = plain(text)
    bound, text = set(' '.join(GROUP.findall(text)).split()), without_fields(text)
    for m in re.finditer(r'λ\s+(.*?)\.(?=\s)', text, re.S):
        bound |= pattern(m[1])
    return bound | set(re.findall(rf'(?:\blet|;)\s+({NAME})(?=\s(?:=|:)\s)', text)) | set(re.findall(rf'({NAME})\s+←', text))


def contract(lines, i):
    """The text of the contract of the function whose head is line i."""
    text = []
    for line in lines[i:]:
        if line.startswith('{') or line == '}':
            break
        if text or re.match(r'\s+(requires|ensures)\b', line):
            text.append(line)
    return '\n'.join(text)


# A clause of a contract or a ghost member, from its brace to the line's end, or what goes on of one from the line before.
CLAUSE = re.compile(r'^\s*(?:(?:requires|ensures|ghost)\b.*|[×∷].*)$')


class Source:
    """A .rt file as far as contracts go: looks like a File to Words."""

    def __init__(self, lines):
        self.uses = [Use(USE.match(l), i) for i, l in enumerate(lines) if l.startswith('ghost use ')]
        self.decls, self.made = {}, {}
        self.names = {here: (u, there) for u in self.uses for there, here in u.names}
        self.aliases = {u.alias: u for u in self.uses if u.alias}
        self.fns = {m[2]: (bool(m[1]), contract(lines, i)) for i, l in enumerate(lines) if (m := FN.match(l))}
        # what cites names anywhere: the contracts of functions and methods, and the ghost members of types, traits and impls
        self.cited = '\n'.join(clause for l in lines if not l.startswith('ghost use ') for clause in CLAUSE.findall(l.split('//')[0]))


def asked(tree, source, text):
    """The declarations that a contract cites."""
    words = Words(tree, source)
    words.text(text, set())
    return {d for w in words.found if isinstance(d := tree.meaning(source, w), Decl)}
