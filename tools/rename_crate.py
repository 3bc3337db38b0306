#!/usr/bin/env python3
"""rename_crate.py OLD NEW [OLD NEW ..]: renames crates everywhere, all at once, so that names may change places.

Many crates are called by ordinary words (moves, lines, reads), so a name is changed only where a crate stands: the folders of crates/, the names of
crates.txt, `Rattle.OLD`, `OLD::` in code, edits and scripts (not where the crate that the file is in has a module of that name), `crates/OLD`,
`libOLD.a`, words behind rt, tools/run and reached.py, `OLD/specs`, `OLD/proofs`, `OLD/src` in documents, README's table and picture of crates, what scripts
quote as a crate; names with a _ in all prose. Then it prints the lines that may still mean a crate (the name in backticks, or beside the word crate), to be
looked at by hand. Run imports.py, names.py and rt fmt afterwards."""
import glob
import os
import re
import subprocess
import sys

os.chdir(os.path.join(os.path.dirname(os.path.abspath(__file__)), '..'))
PLACES = 'crates/**/*', 'tools/*', 'bench/*', 'beside/**/*', 'examples/*', 'rust/**/*', 'docs/*', 'include/*', '*', '.ci/*'
MARK = '\0'
pairs = dict(zip(sys.argv[1::2], sys.argv[2::2]))
ANY = '|'.join(sorted(pairs, key=len, reverse=True)) or '(?!)'
TELLING = '|'.join(p for p in sorted(pairs, key=len, reverse=True) if '_' in p) or '(?!)'  # no ordinary words, and no function is called so


def new(m):
    """The match with the crate's name in it changed; a mark in the new name keeps it from being changed again."""
    at, end = m.start('crate') - m.start(), m.end('crate') - m.start()
    name = m['crate']
    dashed = name.replace('-', '_')
    changed = pairs[name] if name in pairs else pairs[dashed].replace('_', '-')
    return m[0][:at] + changed[0] + MARK + changed[1:] + m[0][end:]


def rules(path):
    """The places where a crate's name stands in this file."""
    own = re.match(r'crates/(\w+)/', path)
    modules = {os.path.basename(f)[:-3] for f in glob.glob(f'crates/{own[1]}/src/*.rt')} if own else set()
    inside = '|'.join(sorted(set(pairs) - modules, key=len, reverse=True)) or '(?!)'
    dashed = ANY.replace('_', '-')
    found = [rf'Rattle\.(?P<crate>{ANY})(?=\.)', rf'(?<![\w/])crates/(?P<crate>{ANY})(?!\w)', rf'\blib(?P<crate>{ANY})\.a\b',
             rf'(?:\brt (?:check|dev|staticlib|try|must-fail|goals|mir)|tools/run"?|reached\.py)(?: [\w\0]+)*? (?P<crate>{ANY})(?!\w)']
    if not path.endswith('.md'):
        found.append(rf'(?<![\w:.])(?P<crate>{inside})(?=::)')
    if path.endswith('.md'):
        found += [rf'(?<![\w/])(?P<crate>{ANY})(?=/(?:specs|proofs|src|must-fail)\b)', rf'(?<![\w:.])(?P<crate>{ANY})(?=::)']
    if path == 'tools/believe.py':
        found.append(rf"""(?<=['"])(?P<crate>{ANY})(?=['"])""")
    elif path.endswith('.py'):
        found += [rf"""(?<=['"])(?P<crate>{TELLING})(?=['"])""", rf"""(?:struct|specs|proofs|brings)\([^()]*, ['"](?P<crate>{ANY})(?=['"])"""]
    return found


def changed(path, text):
    if path == 'crates.txt':
        return '\n'.join(l if l.startswith('#') else re.sub(rf'(?<!\w)(?P<crate>{ANY})(?!\w)', new, l) for l in text.split('\n'))
    for rule in rules(path):
        while (after := re.sub(rule, new, text)) != text:
            text = after
    telling = re.compile(rf'(?<![\w/])(?P<crate>{TELLING})(?!\w|::)')
    text = '\n'.join(telling.sub(new, l) if path.endswith('.md') or l.lstrip().startswith(('//', '--')) else l for l in text.split('\n'))
    if path == 'README.md':
        start = text.find('## The crates')
        table = re.sub(r'(?m)^\| ([a-z_]+(?:, [a-z_]+)*) \|', lambda m: re.sub(rf'\b(?P<crate>{ANY})\b', new, m[0]), text[start:])
        picture = re.sub(r'(?m)^    .*', lambda m: re.sub(rf'(?<!of )\b(?P<crate>{ANY})\b', new, m[0]), text[text.find('## Where to start'):start])
        text = text[:text.find('## Where to start')] + picture + table
    return text


def files():
    tracked = subprocess.run(['git', 'ls-files'], capture_output=True, text=True, check=True).stdout.split('\n')
    listed = {f for p in PLACES for f in glob.glob(p, recursive=True) if os.path.isfile(f)} | {'.ci/run'}
    return sorted(f for f in listed if f in set(tracked))


def left(path, text):
    """Lines that may still mean a crate."""
    for number, line in enumerate(text.split('\n'), 1):
        if path.endswith(('.md', '.rt', '.antt')) and re.search(rf'`(?:{ANY})`|\bcrates? (?:\w+ and )?`?(?:{ANY})\b', line):
            yield f'{path}:{number}: {line.strip()[:140]}'


def main():
    if len(sys.argv) < 3 or len(sys.argv) % 2 == 0:
        raise SystemExit(__doc__)
    for old, name in pairs.items():
        if not os.path.isdir(f'crates/{old}') or os.path.isdir(f'crates/{name}') and name not in pairs:
            raise SystemExit(f'there is no crate {old}, or {name} is one already')
    count, hand = 0, []
    for path in files():
        try:
            with open(path, encoding='utf-8', newline='') as f:
                text = f.read()
        except UnicodeDecodeError:
            continue
        after = changed(path, text).replace(MARK, '')
        hand += left(path, after)
        if after != text:
            count += 1
            with open(path, 'w', encoding='utf-8', newline='') as f:
                f.write(after)
    for old in pairs:
        subprocess.run(['git', 'mv', f'crates/{old}', f'crates/{old}.renamed'], check=True)
    for old, name in pairs.items():
        subprocess.run(['git', 'mv', f'crates/{old}.renamed', f'crates/{name}'], check=True)
    print('\n'.join(hand + [f'{len(pairs)} crates in {count} files; {len(hand)} lines to look at']))


if __name__ == '__main__':
    main()
