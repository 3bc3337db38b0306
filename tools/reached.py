# reached.py CRATE..: the crates that these stand on, and they themselves, in the order of crates.txt.
import sys


def reached(start):
    deps = {}
    for line in open('crates.txt'):
        crate, colon, rest = line.split('#')[0].partition(':')
        if colon:
            deps[crate.split()[0]] = rest.split()
    seen, todo = set(), list(start)
    while todo:
        crate = todo.pop()
        if crate not in seen:
            seen.add(crate)
            todo += deps[crate]
    return [crate for crate in deps if crate in seen]


print(' '.join(reached(sys.argv[1:])))
