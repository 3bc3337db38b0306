# exports.py FOLDER: writes FOLDER/src/main.rt, a program with each counted call under a C name, and FOLDER/calls.h.
# NAME is the public call; NAME_bare is the same call over crates whose check is `true`, written to FOLDER/bare: it cannot be proved, and is only compiled.
import os
import re
import shutil
import sys

POINTS = {'nums': '[[u32; 4]]', 'reals': '[[f32; 4]]', 'ints': '[[i32; 4]]', 'map': '[u64]', 'pool': '[[u64; 2]]', 'spots': '[[f32; 2]]', 'cells': '[[u64; 2]]'}
BOXES = {name: POINTS[name] for name in ('nums', 'reals', 'map', 'pool')}
PAIR = {**POINTS, **{'box_' + name: rows for name, rows in BOXES.items()}}
HANDLE = 'slot: u32, version: u32'
AT = 'x: f32, y: f32'
BOX = 'left: f32, low: f32, right: f32, high: f32'
TRACKER = 'tracker: u32'
FOUND = 'found: &mut [[u32; 2]], places: &mut [[f32; 2]], objs: &mut [[u32; 2]]'
LISTS = 'kinds: &[u32], handles: &[[u32; 3]], positions: &[[f32; 2]], out: &mut [[u32; 2]]'
BOXES_FOUND = 'found: &mut [[u32; 2]], boxes: &mut [[f32; 4]], objs: &mut [u32]'
# How several parameters become one argument.
MADE = {
    HANDLE: 'Handle { slot: slot, version: version }',
    AT: 'Position { x: x, y: y }',
    BOX: 'Aabb { ll: Position { x: left, y: low }, ur: Position { x: right, y: high } }',
}

# grid, call, tables that it changes, parameters, the part of the result that is returned (all of a number; a bool as 1 or 0)
DEFERRED = 'nums reals ints cells'
CALLS = [
    (POINTS, 'points::new', 'nums map', ['size: u32'], ''),
    (POINTS, 'point_tables::check', '', [], 'bool'),
    (POINTS, 'points::get', '', [HANDLE], '.answer'),
    (POINTS, 'points::remove_maintain', 'nums map pool spots cells', [HANDLE, TRACKER], '.answer'),
    (POINTS, 'points::insert', ' '.join(POINTS), [AT, 'obj: u32', TRACKER], '.answer'),
    (POINTS, 'points::set_position', DEFERRED, [HANDLE, AT, TRACKER], ''),
    (POINTS, 'points::remove', DEFERRED, [HANDLE, TRACKER], '.answer'),
    (POINTS, 'points::batch', DEFERRED, [LISTS], '.answer'),
    (POINTS, 'points::maintain', ' '.join(POINTS), [], '.moved'),
    (POINTS, 'points::query_around', '', [AT, 'radius: f32', FOUND], '.count'),
    (POINTS, 'points::nearest', '', [AT, 'radius: f32'], '.obj'),
    (BOXES, 'boxes::new', 'nums map', ['size: u32'], ''),
    (BOXES, 'box_tables::check', '', [], 'bool'),
    (BOXES, 'boxes::insert', ' '.join(BOXES), [BOX, 'obj: u32'], '.answer'),
    (BOXES, 'boxes::set_aabb', 'reals map pool', [HANDLE, BOX], ''),
    (BOXES, 'boxes::remove', 'nums map pool', [HANDLE], '.answer'),
    (BOXES, 'boxes::query', '', [BOX, BOXES_FOUND], '.count'),
    (PAIR, 'encoder::fill_map', '', ['circles: &[[f32; 3]], bytes: &mut [u8]'], ''),
]


def names(parameters):
    return re.findall(r'(\w+):', parameters)


def export(grid, call, name, changed, parameters, result):
    tables = [f"{t}: &{'mut ' if t in changed.split() else ''}{grid[t]}" for t in grid]
    given = [MADE.get(p) or ', '.join(names(p)) for p in parameters]
    arguments = ', '.join(list(grid) + given)
    value = f'if {call}({arguments}) {{ 1 }} else {{ 0 }}' if result == 'bool' else f'let r = {call}({arguments});\n    r{result}'
    text = f'pub extern "C" fn {name}({", ".join(tables + parameters)}) -> u32 {{\n    {value}\n}}\n'
    slots = [f'void *{t}, size_t {t}_n' for t in grid]
    for word, kind in re.findall(r'(\w+): (&|u32|f32)', ', '.join(parameters)):
        slots.append({'&': f'void *{word}, size_t {word}_n', 'u32': f'uint32_t {word}', 'f32': f'float {word}'}[kind])
    return '#[unsafe(no_mangle)]\n' + text, ''.join(f'uint32_t {shown}({", ".join(slots)});\n' for shown in (name, name + '_bare'))


# The crate with a check that says `true` of all tables.
def unchecked(folder, crate):
    with open(f'crates/{crate}/src/lib.rt') as f:
        text, n = re.subn(r'(\npub fn check\(.*?\n\{\n).*?\n\}\n', r'\1    true\n}\n', f.read(), flags=re.S)
    assert n == 1, crate
    shutil.copytree(f'crates/{crate}/src', f'{folder}/bare/{crate}', dirs_exist_ok=True)
    with open(f'{folder}/bare/{crate}/lib.rt', 'w') as f:
        f.write(text)


def main(folder):
    program = ['use geometry::Aabb;\nuse geometry::Position;\nuse slots::Handle;\n']
    header = ['#include <stddef.h>', '#include <stdint.h>', 'typedef struct { void *start; size_t length; } Slice;']
    for grid, call, changed, parameters, result in CALLS:
        text, lines = export(grid, call, call.replace('::', '_'), changed, parameters, result)
        program.append(text)
        header.append(lines)
    for crate in ('point_tables', 'box_tables'):
        unchecked(folder, crate)
    os.makedirs(folder + '/src', exist_ok=True)
    with open(folder + '/src/main.rt', 'w') as f:
        f.write('\n'.join(program + ['fn main() {}\n']))
    with open(folder + '/calls.h', 'w') as f:
        f.write('\n'.join(header) + '\n')


main(sys.argv[1])
