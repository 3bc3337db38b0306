//! "Tables hold a grid when", read anew from document 01 over the layout of docs/TABLES.md. Tables that hold a grid are read as that grid;
//! of others the first thing that is wrong is said.
use crate::box_reading::{Aabb, Boxed, Boxes};
use crate::point_reading::{Point, Points, State};
use crate::rules::*;
use crate::slots::{Slot, Slots};
use crate::tables::{map_words, BoxTables, PointTables};
use std::collections::{BTreeMap, BTreeSet};

/// What the tables hold, or what is wrong with them.
pub type Read<T> = Result<T, &'static str>;

fn must(holds: bool, what: &'static str) -> Read<()> {
    if holds {
        Ok(())
    } else {
        Err(what)
    }
}

/// Versions, phases and the slot map; what an occupied slot holds is read by `object`.
fn read_slots<T>(nums: &[[u32; 4]], map: &[u64], object: impl Fn(usize) -> Read<T>) -> Read<Slots<T>> {
    let n = nums.len();
    let mut slots = vec![];
    for (s, row) in nums.iter().enumerate() {
        must(row[0] != 0, "a version is 0")?;
        slots.push(match row[1] {
            0 => Slot::Free,
            1 => Slot::Live(object(s)?),
            2 => Slot::Retired,
            _ => return Err("a phase is none of three"),
        });
        must(row[1] != 2 || row[0] == LAST_VERSION, "a retired slot is not at the last version")?;
        let usable = map[3 + s / 64] >> (s % 64) & 1 == 1;
        must(usable == (row[1] == 0), "the slot map does not agree with the records")?;
    }
    let past = (n..(map.len() - 3) * 64).any(|s| map[3 + s / 64] >> (s % 64) & 1 == 1);
    must(!past, "the slot map has a bit past the last slot")?;
    Ok(Slots { versions: nums.iter().map(|row| row[0]).collect(), slots })
}

fn read_point(t: &PointTables, size: u32, s: usize) -> Read<Point> {
    let (reals, ints) = (t.reals[s], t.ints[s]);
    let at = Spot::of_bits([reals[0], reals[1]]);
    let next = Spot::of_bits([reals[2], reals[3]]);
    let cell = Cell { x: i64::from(ints[0]), y: i64::from(ints[1]) };
    let target = Cell { x: i64::from(ints[2]), y: i64::from(ints[3]) };
    must(at.in_domain(), "a position is outside the domain")?;
    must(at.cell(size) == cell, "a record's cell is not that of its position")?;
    let (tracker, state) = (t.nums[s][3] / 4, t.nums[s][3] % 4);
    must(tracker <= LAST_TRACKER, "a tracker is none of eight")?;
    let state = match state {
        0 => State::Unchanged,
        1 => State::NewPos(next),
        2 => State::Relocate(next, target),
        _ => State::Removed,
    };
    match state {
        State::NewPos(next) => {
            must(next.in_domain(), "a pending position is outside the domain")?;
            must(next.cell(size) == cell, "a new position leaves the recorded cell")?;
        }
        State::Relocate(next, target) => {
            must(next.in_domain(), "a pending position is outside the domain")?;
            must(next.cell(size) == target, "a relocation's target is not its cell")?;
            must(target != cell, "a relocation stays in the recorded cell")?;
        }
        _ => (),
    }
    Ok(Point { data: t.nums[s][2], at, cell, state, tracker })
}

/// Building looks at lengths only.
pub fn point_lengths(t: &PointTables) -> Read<()> {
    let n = t.nums.len();
    let alike = [t.reals.len(), t.ints.len(), t.pool.len(), t.spots.len(), t.cells.len()].iter().all(|l| *l == n);
    must((1..=4096).contains(&n) && alike && t.map.len() == map_words(n), "a length is wrong")
}

/// The point grid that the tables hold.
pub fn read_points(t: &PointTables) -> Read<Points> {
    point_lengths(t)?;
    let n = t.nums.len();
    must(size_in_domain(t.map[0]), "the cell size is outside its limits")?;
    must(t.map[1] <= n as u64 && t.map[2] <= n as u64, "a count is past its table")?;
    let size = t.map[0] as u32;
    let slots = read_slots(&t.nums, &t.map, |s| read_point(t, size, s))?;
    let lists = read_point_lists(t, &slots)?;
    Ok(Points { size, slots, lists })
}

/// The lists: runs of the pool, in the order of the keys, and a row of `cells` for each.
fn read_point_lists(t: &PointTables, slots: &Slots<Point>) -> Read<BTreeMap<Cell, Vec<u32>>> {
    let (used, rows) = (t.map[1] as usize, t.map[2] as usize);
    let mut lists: BTreeMap<Cell, Vec<u32>> = BTreeMap::new();
    let mut keys: Vec<u64> = vec![];
    let mut seen = BTreeSet::new();
    let mut pending = BTreeSet::new();
    for j in 0..used {
        let [key, slot] = t.pool[j];
        must(slot < slots.slots.len() as u64, "a list names no slot")?;
        let object = slots.live(slot as u32).ok_or("a list names an empty slot")?;
        must(key == object.cell.key(), "an object stands in the list of another cell")?;
        must(t.spots[j] == object.at.bits(), "an entry has another position than the record")?;
        must(seen.insert(slot), "an object stands twice")?;
        must(j == 0 || t.pool[j - 1][0] <= key, "a cell has two lists, or the lists are out of order")?;
        if keys.last() != Some(&key) {
            keys.push(key);
        }
        if object.state != State::Unchanged {
            pending.insert(key);
        }
        lists.entry(object.cell).or_default().push(slot as u32);
    }
    must(used == slots.len(), "an object stands in no list")?;
    must(t.cells[..rows].iter().map(|row| row[0]).eq(keys.iter().copied()), "the cells are not those of the lists")?;
    for [key, dirty] in &t.cells[..rows] {
        must(*dirty <= 1, "a dirty mark is none of two")?;
        must(*dirty == 1 || !pending.contains(key), "a cell with a pending object is not marked dirty")?;
    }
    Ok(lists)
}

pub fn box_lengths(t: &BoxTables) -> Read<()> {
    let (n, pool) = (t.nums.len(), t.pool.len());
    must((1..=256).contains(&n) && t.reals.len() == n && t.map.len() == map_words(n), "a length is wrong")?;
    must((1..=8192).contains(&pool), "the pool's length is wrong")
}

/// The box grid that the tables hold.
pub fn read_boxes(t: &BoxTables) -> Read<Boxes> {
    box_lengths(t)?;
    let pool = t.pool.len();
    must(size_in_domain(t.map[0]), "the cell size is outside its limits")?;
    must(t.map[1] <= pool as u64, "a count is past its table")?;
    let size = t.map[0] as u32;
    let slots = read_slots(&t.nums, &t.map, |s| {
        let aabb = Aabb::of_bits(t.reals[s]);
        must(aabb.good(), "a box is reversed or outside the domain")?;
        must(aabb.range(size).count() <= MOST_CELLS, "a box covers too many cells")?;
        Ok(Boxed { data: t.nums[s][2], aabb })
    })?;
    let lists = read_box_lists(t, size, &slots)?;
    Ok(Boxes { size, pool, slots, lists })
}

fn read_box_lists(t: &BoxTables, size: u32, slots: &Slots<Boxed>) -> Read<BTreeMap<Cell, Vec<(u32, bool)>>> {
    let mut lists: BTreeMap<Cell, Vec<(u32, bool)>> = BTreeMap::new();
    let mut seen = BTreeSet::new();
    let used = t.map[1] as usize;
    for j in 0..used {
        let [key, item] = t.pool[j];
        let (slot, mark) = (item / 2, item % 2 == 1);
        must(slot < slots.slots.len() as u64, "a list names no slot")?;
        let object = slots.live(slot as u32).ok_or("a list names an empty slot")?;
        let range = object.aabb.range(size);
        let cell = Cell { y: (key >> 32) as i64 - (1 << 31), x: (key & 0xFFFF_FFFF) as i64 - (1 << 31) };
        let covered = (range.low.x..=range.high.x).contains(&cell.x) && (range.low.y..=range.high.y).contains(&cell.y);
        must(covered, "a box stands in a cell that it does not cover")?;
        must(mark == (range.count() == 1), "a mark is not that of its box")?;
        must(seen.insert((key, slot)), "a box stands twice in a list")?;
        must(j == 0 || t.pool[j - 1][0] <= key, "a cell has two lists, or the lists are out of order")?;
        lists.entry(cell).or_default().push((slot as u32, mark));
    }
    // Each entry is another (cell, box) of those covered, so that with the right number none is missing.
    let covered: i64 = slots.objects().map(|(_, o)| o.aabb.range(size).count()).sum();
    must(used as i64 == covered, "a box is missing from a cell that it covers")?;
    Ok(lists)
}
