# table.py COUNTS WORDS..: the table of what ./bench/run counted. COUNTS/SIDE/DATA has callgrind's files and `said`, the program's own lines.
# WORDS are the numbers of points and the layouts that were counted, and `boxes`.
import glob
import os
import re
import sys

COUNTS, WORDS = sys.argv[1], sys.argv[2:]
SIZES = [word for word in WORDS if word.isdigit()]
LAYOUTS = ('spread', 'clustered')
CALLS = ('get', 'set_position', 'remove', 'insert', 'query_around 60', 'nearest 60', 'query_around 150')
BOX_CALLS = {'insert': 'insert', 'set_aabb same': 'set_aabb, the same cells', 'set_aabb other': 'set_aabb, other cells', 'remove': 'remove', 'query': 'query'}
NONE = [None] * 3


# By label: the mean of its regions, less what an empty one costs; and the program's lines. None and no lines if this side was not counted.
def read(side, data):
    regions, said = {}, {}
    for path in glob.glob(f'{COUNTS}/{side}/{data}/out.*'):
        text = open(path).read()
        label = re.search(r'^desc: Trigger: Client Request: (.*)$', text, re.M)
        if label:
            regions.setdefault(label.group(1), []).append(int(re.search(r'^(?:summary|totals): (\d+)', text, re.M).group(1)))
    if not regions:
        return None, {}
    for line in open(f'{COUNTS}/{side}/{data}/said'):
        label, _, result = line.rsplit(' ', 2)
        said.setdefault(label, []).append(int(result))
    empty = regions['empty'][0]
    return {label: sum(counts) / len(counts) - empty for label, counts in regions.items()}, said


def shown(value):
    if value is None or isinstance(value, str):
        return value or ''
    return f'{value:,.0f}' if value >= 100 else f'{value:.1f}' if value >= 10 else f'{value:.3f}'


# With the check, without it, the Rust's. `get` has no form without the check: there it is the difference.
def three(port, rust, label, share=1):
    bare = port.get(label + ' bare', port[label] - share * port['check'])
    return [port[label] / share, bare / share, rust[label] / share if rust else 'not measured']


def call_rows(port, rust, n):
    rows = {call: three(port, rust, call, 16) for call in CALLS}
    rows['fill_map'] = three(port, rust, 'fill_map')
    rows['check, a slot'] = [port['check'] / n, None, None]
    return rows


def frame_rows(port, rust, n):
    parts = {label: three(port, rust, label) for label in ('batch', 'maintain', 'circles', 'frame map')}

    def whole(last):
        return [sum(parts[label][k] for label in ('batch', 'maintain', last)) if rust or k < 2 else 'not measured' for k in range(3)]

    checked, bare, old = whole('circles')
    mapped = whole('frame map')
    once = checked - (port['circles'] - port['circles bare']) * 15 / 16
    rows = {
        'batch, a move': three(port, rust, 'batch', n),
        'maintain': parts['maintain'],
        'check, every object pending, a slot': [port['check pending'] / n, None, None],
        'frame, 18 checks': [checked, bare, old],
        'frame, one check for the circles': [once, None, old],
        'frame with the map, 4 checks': mapped,
    }
    if rust:
        rows["frame, 18 checks, times the Rust's"] = [checked / old, bare / old, None]
        rows["frame, one check for the circles, times the Rust's"] = [once / old, None, None]
        rows["frame with the map, 4 checks, times the Rust's"] = [mapped[0] / mapped[2], mapped[1] / mapped[2], None]
    return rows


def line(*cells):
    print('| ' + ' | '.join(shown(cell) for cell in cells) + ' |')


def head(what, which, left, right):
    line(what, which, f'{left}: with check', 'without', 'Rust', f'{right}: with check', 'without', 'Rust')
    print('|---|--:|' + '--:|' * 6)


def print_rows(make, rate, note):
    tables = {}
    for layout in LAYOUTS:
        for n in SIZES if layout in WORDS else []:
            data = f'{layout}-{n}-{rate}'
            tables[layout, n] = make(read('port', data)[0], read('original', data)[0], int(n))
    for what in next(iter(tables.values())):
        for n in SIZES:
            line(what + note, f'{int(n):,}', *(cell for layout in LAYOUTS for cell in tables.get((layout, n), {}).get(what, NONE)))


def print_points():
    head('points', 'n', *LAYOUTS)
    print_rows(call_rows, 95, '')
    print_rows(frame_rows, 95, ' (95 %)')
    print_rows(frame_rows, 5, ' (5 %)')
    print('\n95 % or 5 % of the points change cell in a frame. A frame is a batch of n moves, maintain and 16 circles of radius 60;\n'
          'in a frame with the map `fill_map` of these circles and of 256 boxes in a pool of 8,192 entries takes their place.\n')


def print_boxes():
    pools = [(read('port', f'boxes-{name}')[0], read('original', f'boxes-{name}')[0]) for name in ('half', 'full')]
    head('boxes of 64 cells', 'pool', 'half full', 'full')
    for label, what in BOX_CALLS.items():
        share = 1 if label in ('insert', 'remove') else 16
        line(what, '8,192', *(cell for port, rust in pools for cell in three(port, rust, label, share)))
    line('check', '8,192', *(cell for port, _ in pools for cell in [port['check'], None, None]))
    (few, few_said), (many, many_said) = read('port', 'boxes-small'), read('port', 'boxes-large')
    entries = [said['entries'][0] for said in (few_said, many_said)]
    entry = (many['check'] - few['check']) / (entries[1] - entries[0])
    slot = (few['check'] - entry * entries[0]) / 256
    print(f'\nThe box check: {slot:.1f} a slot and {entry:.1f} an entry (256 boxes of 1 and of 25 cells: '
          f"{few['check']:,.0f} and {many['check']:,.0f}).")


# Both sides have found as much, and have the same data of the nearest and the same maps.
def print_agreement():
    same, other = 0, []
    for folder in sorted(glob.glob(COUNTS + '/original/*')):
        data = os.path.basename(folder)
        port, rust = read('port', data)[1], read('original', data)[1]
        for label in rust:
            if label.startswith(('query', 'nearest', 'circles', 'map')):
                same += port[label] == rust[label]
                other += [f'{data}: {label}'] if port[label] != rust[label] else []
    if same or other:
        print('\n- '.join([f'\nBoth sides found as much in {same} of {same + len(other)} series of queries.'] + other))


# The proved library's calls with their checks, beside the same calls of the port as it was compiled here.
def print_proved():
    apart = {}
    for folder in glob.glob(COUNTS + '/port/*'):
        port = read('port', os.path.basename(folder))[0]
        for label in port:
            call = label.removesuffix(' proved')
            if call != label:
                apart.setdefault(call, []).append(100 * (port[label] / port[call] - 1))
    if apart:
        print('\nThe proved library, more or less: ' + '; '.join(f'{call} {min(all):+.1f} to {max(all):+.1f} %' for call, all in sorted(apart.items())) + '.')


if 'spread' in WORDS or 'clustered' in WORDS:
    print_points()
if 'boxes' in WORDS:
    print_boxes()
print_agreement()
print_proved()
