"""Where src/ has the forms that docs/DESIGN-PASS.md counts: `python3 tools/places.py [-l] [COMMIT]`, a line for each form, with -l each place. No COMMIT: the working tree."""
import re
import subprocess
import sys

ARGS = [a for a in sys.argv[1:] if a != "-l"]
LISTED = "-l" in sys.argv[1:]
TABLES = ["nums", "reals", "ints", "map", "pool", "spots", "cells"]

# form: (point, what it is, a pattern of one line)
LINES = [
    ("1", "an own enum's variant for nothing", r"^ *(Nothing|NoCount|Missing|Unreadable),$"),
    ("1", "an answer's number beside a value in a struct", r"^ +(pub )?answer: u32,$"),
    ("1", "a refusal by its number", r"\banswer: [1-9]\d?\b|\breturn [1-9]\d?;|\b(refused|refused_insert|refusal|none|no_box|Refused|refused_batch)\([1-9]\d?\)|^ +[1-9]\d?$"),
    ("1", "a test whether an answer's number is 0", r"\bif (why|a|answer|[a-z]+\.answer|made) [!=]= 0 \{"),
    ("1", "a kind or a state's tag by its number", r"\b(kind|tag): u32\b"),
    ("1", "an array whose zero says nothing", r"return \[0, 0, 0, 0\];"),
    ("3", "a `while`", r"\bwhile\b.*\{$"),
    ("4", "a number taken to another width by a function", r"\bbasics::(wide|index_of|word_of)\b|^use basics::\{?.*(wide|index_of|word_of)"),
    ("4", "the lesser or the greater by hand", r"\bfn (lesser|least|larger|greater|apart|one_less)\("),
    ("4", "equality, order or a conversion by hand", r"\bfn (same\w*|tracker_of|number_of|state_of|tag_of|magnitude|digit_of|digit)\("),
    ("4", "printing by hand", r"\bfn (say|number|next|line|longer_line|longest_line|begin|print_signed|tell_byte)\("),
    ("6", "bounds beside a buffer of bytes", r"\b(b|out|line): &(mut )?\[u8\].*\b(at|from|len): usize"),
    ("7", "a switch on which step to run", r"\bif (kind|tag) [!=]= \d|\bmatch test\b"),
]


def files():
    if ARGS:
        names = subprocess.run(["git", "ls-tree", "-r", "--name-only", ARGS[0], "crates"], capture_output=True, text=True, check=True).stdout.split()
        for n in names:
            if re.fullmatch(r"crates/\w+/src/.*\.rt", n):
                yield n, subprocess.run(["git", "show", f"{ARGS[0]}:{n}"], capture_output=True, text=True, check=True).stdout
    else:
        names = subprocess.run(["git", "ls-files", "crates"], capture_output=True, text=True, check=True).stdout.split()
        for n in names:
            if re.fullmatch(r"crates/\w+/src/.*\.rt", n):
                yield n, open(n).read()


def functions(text):
    """name, parameters, body and line of each function: rt fmt's layout closes a body at the indent of its `fn`"""
    for m in re.finditer(r"^( *)(?:pub )?(?:const )?(?:extern \"C\" )?fn (\w+)(.*?)^\1\}$", text, re.M | re.S):
        head, _, body = m[3].partition("{\n") if "ensures" not in m[3] and "requires" not in m[3] else m[3].partition("\n" + m[1] + "{\n")
        yield m[2], head, body, text.count("\n", 0, m.start()) + 1


def shape(body):
    body = re.sub(r"//.*", "", body)
    return re.sub(r"\s+", " ", body).strip()


def main():
    rows = {}
    bodies = {}
    for path, text in files():
        for point, what, pattern in LINES:
            for i, line in enumerate(text.split("\n"), 1):
                if not line.lstrip().startswith(("//", "ghost use", "ensures", "requires")) and re.search(pattern, line):
                    rows.setdefault((point, what), []).append(f"{path}:{i}: {line.strip()}")
        for name, head, body, at in functions(text):
            params = set(re.findall(r"^\s*(\w+): ", head.replace("(", "\n").replace(", ", "\n"), re.M))
            here = f"{path}:{at}: {name}"
            if sum(t in params for t in TABLES) >= 3:
                rows.setdefault(("5", "three or more of a grid's tables as parameters"), []).append(here)
            if {"known", "ends"} <= params:
                rows.setdefault(("5", "the kept spans as parameters"), []).append(here)
            if {"nexts", "stops", "jumps"} <= params:
                rows.setdefault(("6", "the ways of the slots as parallel arrays"), []).append(here)
            if {"handles", "places", "objs"} <= params or {"handles", "boxes", "objs"} <= params:
                rows.setdefault(("5", "the outputs of a query as parameters"), []).append(here)
            s = shape(body)
            if len(s) > 24:
                bodies.setdefault(s, []).append(here)
    for s, where in bodies.items():
        if len(where) > 1:
            rows.setdefault(("2", "a body that stands again to the letter"), []).extend(where)
    kinds = [(p, w) for p, w, _ in LINES] + [("2", "a body that stands again to the letter"), ("5", "three or more of a grid's tables as parameters"), ("5", "the outputs of a query as parameters"), ("5", "the kept spans as parameters"), ("6", "the ways of the slots as parallel arrays")]
    for k in sorted(set(kinds), key=lambda k: (k[0], kinds.index(k))):
        places = rows.get(k, [])
        print(f"{k[0]} | {k[1]} | {len(places)}")
        if LISTED:
            for p in places:
                print("    " + p)


main()
