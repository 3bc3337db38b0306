"""costs.py CRATE [ROWS]: the modules of a crate whose checked form is largest, in bytes, as the last `rt check` left them in its out/. Nearly all of a check's
time goes to them."""
import os
import re
import sys

crate, rows = sys.argv[1], int(sys.argv[2]) if len(sys.argv) > 2 else 20
size = {}
for folder, _, names in os.walk(f'crates/{crate}/out/incremental'):
    for name in names:
        module = re.sub(r'(\.decls)?\.oantt.*$', '', name)
        size[module] = size.get(module, 0) + os.path.getsize(os.path.join(folder, name))
for module, n in sorted(size.items(), key=lambda m: -m[1])[:rows]:
    print(f'{n:12,}  {module.replace(f"Rattle-{crate}-proofs.", "")}')
print(f'{sum(size.values()):12,}  all of it')
