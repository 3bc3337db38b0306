//! original DATA: the original's side, call by call as port.c, over the same data.
use flat_spatial::grid::GridHandle;
use flat_spatial::{AABBGrid, Grid, AABB};
use std::arch::asm;
use std::hint::black_box;

const PICKS: usize = 16;
type Spot = [f32; 2];
type Points = Grid<u32, Spot>;

#[derive(Clone, Copy)]
struct Rect(Spot, Spot);
impl AABB for Rect {
    type V2 = Spot;
    fn ll(&self) -> Spot {
        self.0
    }
    fn ur(&self) -> Spot {
        self.1
    }
}

/// The requests of valgrind/callgrind.h: a number and one word. Without valgrind they do nothing.
const START: usize = 0x4354_0004;
const ZERO: usize = 0x4354_0001;
const DUMP_AT: usize = 0x4354_0003;
#[inline(always)]
fn request(what: usize, word: *const u8) {
    let words = [what, word as usize, 0, 0, 0, 0];
    unsafe {
        asm!("rol rdi, 3", "rol rdi, 13", "rol rdi, 61", "rol rdi, 51", "xchg rbx, rbx", in("rax") &words, inout("rdx") 0usize => _)
    }
}

/// One region, over `times` calls. Their results are added up.
macro_rules! count {
    ($label:expr, $times:expr, |$k:ident| $call:expr) => {{
        let mut sum = 0usize;
        request(ZERO, std::ptr::null());
        for $k in 0..$times {
            sum += black_box($call) as usize;
        }
        request(DUMP_AT, concat!($label, "\0").as_ptr());
        println!("{} {} {}", $label, $times, sum);
    }};
}

struct Words(Vec<u8>, usize);
impl Words {
    fn word(&mut self) -> u32 {
        self.1 += 4;
        u32::from_le_bytes(self.0[self.1 - 4..self.1].try_into().unwrap())
    }
    fn spot(&mut self) -> Spot {
        [f32::from_bits(self.word()), f32::from_bits(self.word())]
    }
    fn spots(&mut self, n: usize) -> Vec<Spot> {
        (0..n).map(|_| self.spot()).collect()
    }
    fn rects(&mut self, n: usize) -> Vec<Rect> {
        (0..n).map(|_| Rect(self.spot(), self.spot())).collect()
    }
}

#[inline(never)]
fn batch(grid: &mut Points, handles: &[GridHandle], to: &[Spot]) -> usize {
    for (handle, at) in handles.iter().zip(to) {
        grid.set_position(*handle, *at);
    }
    0
}

/// The findings are written to a list, as the port writes them to its outputs; the data, which the port writes too, this query does not give.
#[inline(never)]
fn around(grid: &Points, centre: Spot, radius: f32, found: &mut Vec<(GridHandle, Spot)>) -> usize {
    found.clear();
    found.extend(grid.query_around(centre, radius));
    found.len()
}

/// The original has no `nearest`: this is what its user would write, the least of what its circle reports, in one pass and with no list, and the data of that
/// one. Of equally near ones it keeps the first found, where the port gives that of the lowest slot.
#[inline(never)]
fn nearest(grid: &Points, centre: Spot, radius: f32) -> u32 {
    let mut best = (f32::INFINITY, None);
    for (handle, at) in grid.query_around(centre, radius) {
        let (dx, dy) = (at[0] - centre[0], at[1] - centre[1]);
        if dx * dx + dy * dy < best.0 {
            best = (dx * dx + dy * dy, Some(handle));
        }
    }
    best.1.map_or(0, |handle| *grid.get(handle).unwrap().1)
}

/// The original has no `fill_map` either: what its user would write. The byte of each recorded point, then of each that a circle finds, then a query for each
/// block that is not 3.
#[inline(never)]
fn fill_map(points: &Points, boxes: &AABBGrid<u32, Rect>, centres: &[Spot], map: &mut [u8]) -> usize {
    let block = |at: Spot| (at[0] >= 0.0 && at[0] < 1280.0 && at[1] >= 0.0 && at[1] < 720.0).then(|| at[1] as usize / 16 * 80 + at[0] as usize / 16);
    map.fill(0);
    for k in points.objects().filter_map(|(at, _)| block(at)) {
        map[k] = 1;
    }
    for k in centres.iter().flat_map(|c| points.query_around(*c, 60.0)).filter_map(|(_, at)| block(at)) {
        map[k] = 3;
    }
    for (k, byte) in map.iter_mut().enumerate().filter(|(_, byte)| **byte != 3) {
        let (x, y) = ((k % 80 * 16) as f32, (k / 80 * 16) as f32);
        if boxes.query(Rect([x, y], [x + 16.0, y + 16.0])).next().is_some() {
            *byte = 2;
        }
    }
    0
}

/// What a map is, for the other side.
fn say(map: &[u8]) {
    println!("map 1 {}", map.iter().zip(1..).map(|(byte, k)| k * *byte as usize).sum::<usize>());
}

fn points(mut data: Words) {
    let (n, frames) = (data.word() as usize, data.word() as usize);
    let frames: Vec<Vec<Spot>> = (0..=frames).map(|_| data.spots(n)).collect();
    let centres = data.spots(PICKS);
    let mut grid: Points = Grid::new(16);
    let handles: Vec<GridHandle> = frames[0].iter().enumerate().map(|(i, at)| grid.insert(*at, i as u32)).collect();
    let mut boxes: AABBGrid<u32, Rect> = AABBGrid::new(16);
    for (i, b) in data.rects(256).into_iter().enumerate() {
        boxes.insert(b, i as u32);
    }
    let (mut found, mut map) = (Vec::with_capacity(n), vec![0; 3600]);
    request(START, std::ptr::null());
    count!("empty", 1, |_k| 0);
    let pick = |k: usize| k * (n / PICKS) + 3;

    count!("get", PICKS, |k| grid.get(handles[pick(k)]).is_none());
    let mut changed = grid.clone();
    count!("set_position", PICKS, |k| {
        changed.set_position(handles[pick(k)], frames[1][pick(k)]);
        0
    });
    let mut changed = grid.clone();
    count!("remove", PICKS, |k| changed.remove(handles[pick(k)]).is_none());
    let mut changed = grid.clone();
    for k in 0..PICKS {
        changed.remove_maintain(handles[pick(k)]);
    }
    count!("insert", PICKS, |k| {
        black_box(changed.insert(frames[0][pick(k)], k as u32));
        0
    });
    count!("query_around 60", PICKS, |k| around(&grid, centres[k], 60.0, &mut found));
    count!("nearest 60", PICKS, |k| nearest(&grid, centres[k], 60.0));
    count!("query_around 150", PICKS, |k| around(&grid, centres[k], 150.0, &mut found));
    count!("fill_map", 1, |_k| fill_map(&grid, &boxes, &centres, &mut map));
    say(&map);

    for frame in &frames[1..] {
        count!("batch", 1, |_k| batch(&mut grid, &handles, frame));
        count!("maintain", 1, |_k| {
            grid.maintain_deterministic();
            0
        });
        count!("circles", PICKS, |k| around(&grid, centres[k], 60.0, &mut found));
        count!("frame map", 1, |_k| fill_map(&grid, &boxes, &centres, &mut map));
        say(&map);
    }
}

fn boxes(mut data: Words) {
    let n = data.word() as usize;
    let boxes = data.rects(n);
    let (same, other, asked) = (data.rects(PICKS), data.rects(PICKS), data.rects(PICKS));
    let picked: Vec<usize> = (0..PICKS).map(|_| data.word() as usize).collect();
    let mut grid: AABBGrid<u32, Rect> = AABBGrid::new(16);
    let mut handles: Vec<_> = boxes.iter().enumerate().map(|(i, b)| grid.insert(*b, i as u32)).collect();
    let mut found = Vec::with_capacity(n);
    request(START, std::ptr::null());
    count!("empty", 1, |_k| 0);

    count!("set_aabb same", PICKS, |k| {
        grid.set_aabb(handles[picked[k]], same[k]);
        0
    });
    picked.iter().for_each(|i| grid.set_aabb(handles[*i], boxes[*i]));
    count!("set_aabb other", PICKS, |k| {
        grid.set_aabb(handles[picked[k]], other[k]);
        0
    });
    picked.iter().for_each(|i| grid.set_aabb(handles[*i], boxes[*i]));
    count!("query", PICKS, |k| {
        found.clear();
        found.extend(grid.query(asked[k]).map(|(handle, b, obj)| (handle, *b, *obj)));
        found.len()
    });
    for &i in &picked {
        count!("remove", 1, |_k| grid.remove(handles[i]).is_none());
        count!("insert", 1, |_k| {
            handles[i] = grid.insert(boxes[i], i as u32);
            0
        });
    }
}

fn main() {
    let path = std::env::args().nth(1).expect("usage: original DATA");
    let data = Words(std::fs::read(&path).expect("the data"), 0);
    if path.rsplit('/').next().unwrap().starts_with("boxes-") {
        boxes(data)
    } else {
        points(data)
    }
}
