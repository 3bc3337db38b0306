# data.py FOLDER: the data of both sides, the same at every run. Numbers of 32 bits, little endian.
# points, FOLDER/LAYOUT-N-RATE: n, the number of frames, then frames + 1 lists of n positions, 16 centres of circles, and the 256 boxes of the map.
# boxes, FOLDER/boxes-NAME: their number, the boxes, 16 of them in the same cells, these in other cells, 16 boxes to ask for, and which 16 they are.
import math
import os
import random
import struct
import sys

WIDTH, HEIGHT, SIZE, FRAMES = 1280, 720, 16, 3
# Two hands and a face: centre, spread and share of the points.
HANDS = [(400, 460, 55, 0.375), (860, 470, 55, 0.375), (640, 210, 70, 0.25)]


def single(x):
    return struct.unpack('f', struct.pack('f', x))[0]


def place(rng, layout, i, n):
    if layout == 'spread':
        return single(rng.random() * WIDTH), single(rng.random() * HEIGHT)
    share = i / n
    for x, y, deviation, part in HANDS:
        if share < part:
            break
        share -= part
    x, y = rng.gauss(x, deviation), rng.gauss(y, deviation)
    return single(min(max(x, 0), WIDTH - 0.01)), single(min(max(y, 0), HEIGHT - 0.01))


def cell(p):
    return int(p[0]) // SIZE, int(p[1]) // SIZE


def moved(rng, layout, i, n, p, rate):
    if rng.random() >= rate / 100:
        return tuple(single(c * SIZE + rng.random() * 15.9) for c in cell(p))
    while True:
        q = place(rng, layout, i, n)
        if layout == 'spread':
            angle, far = rng.random() * 2 * math.pi, 16 + rng.random() * 40
            q = single(p[0] + far * math.cos(angle)), single(p[1] + far * math.sin(angle))
        if 0 <= q[0] < WIDTH and 0 <= q[1] < HEIGHT and cell(q) != cell(p):
            return q


def write(path, counts, rows):
    with open(path, 'wb') as f:
        f.write(struct.pack(f'<{len(counts)}I', *counts))
        for row in rows:
            f.write(struct.pack(f'<{len(row)}f', *row))


# 256 boxes of 8 by 4 cells: they fill a pool of 8,192 entries.
def map_boxes():
    rng = random.Random('map')
    corners = [(rng.randrange(80 - 8) * SIZE + 2, rng.randrange(45 - 4) * SIZE + 2) for _ in range(256)]
    return [(x, y, x + 7 * SIZE + 7, y + 3 * SIZE + 7) for x, y in corners]


def points(folder, layout, n, rate):
    start, rng = random.Random(f'{layout}{n}'), random.Random(f'{layout}{n}{rate}')
    order = list(range(n))
    start.shuffle(order)
    frames = [[place(start, layout, i, n) for i in order]]
    for _ in range(FRAMES):
        frames.append([moved(rng, layout, i, n, p, rate) for i, p in zip(order, frames[-1])])
    centres = [place(start, layout, start.randrange(n), n) for _ in range(16)]
    write(f'{folder}/{layout}-{n}-{rate}', (n, FRAMES), [p for frame in frames for p in frame] + centres + map_boxes())


# Boxes of `side` by `side` cells.
def boxes(folder, name, count, side):
    rng = random.Random(name)
    corners = [(rng.randrange(80 - side) * SIZE, rng.randrange(45 - side) * SIZE) for _ in range(count)]
    far = (side - 1) * SIZE

    def box(x, y, inset):
        return x + inset, y + inset, x + far + 7 + inset, y + far + 7 + inset

    picked = [(2 * k + 1) * count // 32 for k in range(16)]
    chosen = [corners[i] for i in picked]
    rows = [box(x, y, 2) for x, y in corners]
    same = [box(x, y, 3) for x, y in chosen]
    other = [box(x + (160 if x < 500 else -160), y, 2) for x, y in chosen]
    asked = [(60 * k, 30 * k, 60 * k + 160, 30 * k + 160) for k in range(16)]
    path = f'{folder}/boxes-{name}'
    write(path, (count,), rows + same + other + asked)
    with open(path, 'ab') as f:
        f.write(struct.pack('<16I', *picked))


folder = sys.argv[1]
os.makedirs(folder, exist_ok=True)
for layout in ('spread', 'clustered'):
    for n in (256, 1024, 4096):
        for rate in (95, 5):
            points(folder, layout, n, rate)
boxes(folder, 'half', 64, 8)
boxes(folder, 'full', 128, 8)
boxes(folder, 'small', 256, 1)
boxes(folder, 'large', 256, 5)
