# shims.py HEADER: C that gives each call of the header to the function inner_CALL of the port. A slice is its start and its length on both sides. The port
# returns a struct of two numbers in two registers, as C returns two words, and writes a longer one to an address that comes first. The compiler holds the
# shims to the header's prototypes.
import re
import sys

print('#include "chavrupas.h"\ntypedef struct { uint64_t first, second; } two;')
with open(sys.argv[1]) as f:
    text = re.sub(r'/\*.*?\*/', '', f.read(), flags=re.S)
fields = {}
for body, name in re.findall(r'typedef struct \{([^}]*)\} (\w+);', text):
    fields[name] = [w.strip() for part in body.split(';') if part.strip() for w in part.strip().split(' ', 1)[1].split(',')]
calls = re.findall(r'^(\w+) chavrupas_(\w+)\(([^)]*)\);', text, flags=re.M)
assert calls, 'no prototype'
for result, name, listed in calls:
    parameters = [p.strip() for p in listed.replace('\n', ' ').split(',')]
    given = ', '.join(re.search(r'(\w+)$', p)[1] for p in parameters)
    if result == 'uint32_t':
        inner, kinds, body = result, listed, f'return inner_{name}({given});'
    elif len(fields[result]) == 2:
        first, second = fields[result]
        inner, kinds, body = 'two', listed, f'two t = inner_{name}({given}); {result} r; r.{first} = (uint32_t)t.first; r.{second} = t.second; return r;'
    else:
        inner, kinds, body = 'void', f'{result} *r, {listed}', f'{result} r; inner_{name}(&r, {given}); return r;'
    print(f'{inner} inner_{name}({kinds});')
    print(f'{result} chavrupas_{name}({listed}) {{ {body} }}')
