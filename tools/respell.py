#!/usr/bin/env python3
"""Brings the names of this tree's own definitions and lemmas to today's spelling, once, right after the toolchain's own script (docs/PORT.md).

A word is in snake case (`wordsFor` is `words_for`), a prime is an apostrophe, and a dash stays only between two words that are definitions themselves, as in
`length-starts`; elsewhere it is an underscore. Types, facts and modules keep their capitals. Functions of src/, exported names, strings and what programs
read and write keep their names. --list prints the names and changes nothing."""
import os
import re
import subprocess
import sys

TOP = os.path.join(os.path.dirname(os.path.abspath(__file__)), '..')
TOKEN = re.compile(r"""[^\s(){}\[\]⟨⟩.,;:"`|@]+""")
DEFINED = re.compile(r"^\s*(?:(?:pub|abbrev|unfoldable|open) )*(data |record |)([^\s:(){}.,;λ|@\[\]]+) (?::|\()")
BINDER = re.compile(r"[({]([^(){}:=→λ]+) : ")
LAMBDA = re.compile(r"λ ([^().:]+)\. ")
USE = re.compile(r"^\s*(?:pub )?(?:ghost )?use ([^{;]+?)(?:\.\{([^}]*)\})?;?$")
# words of the library that a lemma's name may begin with
WORDS = set('length take drop set append map filter get_or replicate suc zero add mul div mod sub pow cons nil min max eqb leb ltb sum reverse count_ones'.split())


# words that only join others in a name
SMALL = set('at of in is to on by for as or and from all no not a'.split())


def files(*ends):
    listed = subprocess.run(['git', 'ls-files'], cwd=TOP, capture_output=True, text=True, check=True).stdout.split('\n')
    return [f for f in listed if f.endswith(ends) and not f.startswith('crates/trace/std')]


def read(f):
    with open(os.path.join(TOP, f), encoding='utf-8', newline='') as it:
        return it.read()


def snake(part):
    if not part or not part[0].islower():
        return part
    return re.sub(r'([a-z0-9])([A-Z])', lambda m: m[1] + '_' + m[2].lower(), part)


def outer(path, crates):
    """Whether this path is of the toolchain, or a module that the toolchain makes of a source."""
    parts = path.split('.')
    return not (parts[0] == 'Rattle' and len(parts) > 1 and parts[1] in crates and 'declared' not in parts)


def gather():
    """Own names with the words among them, and the names that the toolchain gave."""
    crates = {f.split('/')[1] for f in files('.antt', '.rt') if f.startswith('crates/')}
    own, local, words, given = set(), set(), set(WORDS), set()
    for f in files('.antt'):
        if f.endswith('/Proof.antt'):
            continue
        for line in read(f).split('\n'):
            code = line.split('-- ')[0]
            m = USE.match(code)
            if m:
                if outer(m[1], crates) or m[1].endswith('specs.Words'):
                    for it in (m[2] or m[1].split('.')[-1]).split(','):
                        of, _, named = it.strip().partition(' as ')
                        given.add(of)
                        if not m[1].startswith('Rattle') or '·' not in named:
                            given.add(named)
                continue
            m = DEFINED.match(code)
            if m:
                own.add(m[2])
                if '/specs/' in f:
                    words.add(snake(m[2]))
            for m in BINDER.finditer(code):
                local.update(m[1].split())
            for m in LAMBDA.finditer(code):
                local.update(m[1].split())
    return own, local, words, given


def respelled(name, words, plain):
    parts = [snake(p) for p in name.split('-')]
    out = parts[0]
    for before, part in zip(parts, parts[1:]):
        dash = not plain and before in words and part in words
        out += ('-' if dash else '_') + part
    return out.replace('′', "'").replace('·', '_')


def renames():
    """Old and new names. Where two fall together the definition has the name, and the lemma, which had a dash, ends in `_lem`."""
    own, local, words, given = gather()
    words = {w for w in words if '-' not in w} - SMALL
    turned, taken = {}, given | own | local
    for dashed in False, True:
        for name in sorted(own | local):
            if name in given or ('-' in name) != dashed or not re.search(r"[A-Za-z]", name) or re.search(r'[+≡≤<*→ℤ◌]', name):
                continue
            new = respelled(name, words, name not in own)
            if new == name:
                continue
            if dashed and (new in taken or new in turned.values()):
                new += '_lem'
            elif not dashed and new in own:
                turned[new] = new + '_lem'
            turned[name] = new
    return turned


def behind_dot(text, at):
    return at > 1 and text[at - 1] == '.' and not text[at - 2].isspace()


def turn(text, turned, steps=False, source=False):
    """The text with the new names. A name in snake case behind a dot is a function's, and with steps one with a dash is a step's; in a source only clauses have
    names of ours, and none of them was in snake case before."""
    def new(m):
        name = turned.get(m[0], m[0])
        was_snake = '-' not in m[0] and name.endswith('_lem')
        if was_snake and source or behind_dot(text, m.start()) and (was_snake or steps and '-' in m[0]):
            return m[0]
        return name
    return TOKEN.sub(new, text)


def turn_older(text, turned, own):
    """A text with the names of before the toolchain's script, which had respelled some of them."""
    def new(m):
        plain = snake(m[0]).replace('-', '_')
        if m[0] in turned or plain == m[0] or plain not in own:
            return turned.get(m[0], m[0])
        return turned.get(plain, plain)
    return TOKEN.sub(new, text)


def turn_words(text, turned, own):
    """A page: what stands in backticks."""
    return re.sub(r'`[^`\n]+`', lambda m: turn_older(m[0], turned, own), text)


def main():
    turned = renames()
    if '--list' in sys.argv:
        for name, new in sorted(turned.items()):
            print(name, new)
        return
    own = gather()[0]
    for f in files('.antt', '.rt', '.edit', '.md'):
        text = read(f)
        if f.endswith('.md'):
            new = turn_words(text, turned, own)
        elif f.endswith('.edit'):
            new = turn_older(text, turned, own)
        else:
            new = turn(text, turned, f.endswith('/Proof.antt'), f.endswith('.rt'))
        if new != text:
            with open(os.path.join(TOP, f), 'w', encoding='utf-8', newline='') as it:
                it.write(new)


main()
