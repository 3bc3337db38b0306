//! Records for the trace program, with the answers that the original gives: both grids, some cell sizes, no slot used twice. Without reuse the
//! original's order inside a cell is document 01's, so that its answers can be replayed as they are; a slot is the number of its insertion. The original has no
//! trackers: a point's is the rest of its data divided by 8, and every call names the right one.
use crate::box_reading::Aabb;
use crate::original::{OldBoxes, OldPoints};
use crate::random::Rng;
use crate::rules::{Spot, DONE, GONE, MARKED};
use std::collections::{BTreeSet, HashMap};
use std::fs::File;
use std::io::{BufWriter, Result, Write};
use std::path::Path;

const SEED: u64 = 16;
const SIZES: [i64; 6] = [10, 1, 16, 7, 250, 65_536];
const MOST: i64 = 1_048_576;

/// A number of sixteenths as a coordinate, and back.
fn coordinate(sixteenths: i64) -> f32 {
    sixteenths as f32 / 16.0
}

fn sixteenths(bits: u32) -> i64 {
    (f64::from(f32::from_bits(bits)) * 16.0) as i64
}

fn tracker(data: u32) -> u32 {
    data % 8
}

fn spot(at: [i64; 2]) -> Spot {
    Spot::new(coordinate(at[0]), coordinate(at[1]))
}

fn aabb(b: [i64; 4]) -> Aabb {
    Aabb { ll: spot([b[0], b[1]]), ur: spot([b[2], b[3]]) }
}

struct Sample {
    rng: Rng,
    records: BufWriter<File>,
    answers: BufWriter<File>,
    size: i64,
    points: OldPoints,
    boxes: OldBoxes,
    /// The slots by data number: objects are numbered as they come.
    point_slots: HashMap<u32, u32>,
    box_slots: HashMap<u32, u32>,
    /// Data of the objects that are marked removed.
    marked: BTreeSet<u32>,
}

impl Sample {
    fn line(&mut self, record: String, answer: String) -> Result<()> {
        write!(self.records, "{record}\r\n")?;
        write!(self.answers, "{answer}\r\n")
    }

    /// Within three cells of zero: anywhere, or at an edge or a sixteenth beside it.
    fn at(&mut self) -> i64 {
        let cell = self.size * 16;
        let c = match self.rng.below(3) {
            0 => self.rng.within(-3, 3) * cell + self.rng.within(-1, 1),
            _ => self.rng.within(-3 * cell, 3 * cell),
        };
        c.clamp(-MOST, MOST)
    }

    fn pair(&mut self) -> [i64; 2] {
        [self.at(), self.at()]
    }

    fn rectangle(&mut self) -> [i64; 4] {
        let (a, b) = (self.pair(), self.pair());
        [a[0].min(b[0]), a[1].min(b[1]), a[0].max(b[0]), a[1].max(b[1])]
    }

    fn cell(&mut self, size: i64) -> Result<()> {
        self.size = size;
        self.points = OldPoints::new(size as u32);
        self.boxes = OldBoxes::new(size as u32);
        self.point_slots.clear();
        self.box_slots.clear();
        self.marked.clear();
        self.line(format!("cell,{size}"), "0".to_string())
    }

    fn insert(&mut self) -> Result<()> {
        let [x, y] = self.pair();
        let data = self.rng.bits();
        let slot = self.point_slots.len() as u32;
        self.points.insert(spot([x, y]), data);
        self.point_slots.insert(data, slot);
        self.line(format!("ins,{x},{y},{data},{}", tracker(data)), format!("0,{slot},1"))
    }

    fn some_point(&mut self) -> (u32, u32) {
        let slot = self.rng.below(self.point_slots.len() as u64) as u32;
        let data = self.point_slots.iter().find(|(_, s)| **s == slot).unwrap().0;
        (*data, slot)
    }

    /// The original says nothing: a lost handle is gone, 12, for each of them was given out; a marked object is 1.
    fn position(&mut self) -> Result<()> {
        let ((data, slot), [x, y]) = (self.some_point(), self.pair());
        self.points.set_position(data, spot([x, y]));
        let answer = if self.points.get(data).is_none() {
            GONE
        } else if self.marked.contains(&data) {
            MARKED
        } else {
            DONE
        };
        self.line(format!("pos,{slot},1,{x},{y},{}", tracker(data)), answer.to_string())
    }

    fn remove(&mut self, now: bool) -> Result<()> {
        let (data, slot) = self.some_point();
        let given = if now { self.points.remove_maintain(data) } else { self.points.remove(data) };
        match (given, now) {
            (Some(_), false) => drop(self.marked.insert(data)),
            _ => drop(self.marked.remove(&data)),
        }
        let name = if now { "now" } else { "rem" };
        self.line(format!("{name},{slot},1,{}", tracker(data)), given.map_or(GONE.to_string(), |data| format!("0,{data}")))
    }

    /// Both counts are the original's, by its positions before and after.
    fn maintain(&mut self) -> Result<()> {
        let (moved, removed) = self.points.maintain();
        self.marked.clear();
        self.line("mnt".to_string(), format!("0,{moved},{removed}"))
    }

    fn query(&mut self) -> Result<()> {
        let (record, found) = match self.rng.below(3) {
            0 => {
                let ([x, y], r) = (self.pair(), self.rng.within(0, 3 * self.size * 16).min(MOST));
                (format!("cir,{x},{y},{r}"), self.points.query_around(spot([x, y]), coordinate(r)))
            }
            kind => {
                let (a, b) = (self.pair(), self.pair());
                let rectangle = self.rectangle();
                let [x, y, z, w] = if self.rng.once_in(4) { [a[0], a[1], b[0], b[1]] } else { rectangle };
                let (ll, ur) = (spot([x, y]), spot([z, w]));
                let found = if kind == 1 { self.points.query_aabb(ll, ur) } else { self.points.query(ll, ur) };
                (format!("{},{x},{y},{z},{w}", if kind == 1 { "rec" } else { "cel" }), found)
            }
        };
        let mut answer = format!("0,{}", found.len());
        for (data, [x, y]) in found {
            answer += &format!(",{},1,{},{},{data},{}", self.point_slots[&data], sixteenths(x), sixteenths(y), tracker(data));
        }
        self.line(record, answer)
    }

    fn box_insert(&mut self) -> Result<()> {
        let b = self.rectangle();
        let data = self.rng.bits();
        let slot = self.box_slots.len() as u32;
        self.boxes.insert(aabb(b), data);
        self.box_slots.insert(data, slot);
        self.line(format!("bin,{},{},{},{},{data}", b[0], b[1], b[2], b[3]), format!("0,{slot},1"))
    }

    fn some_box(&mut self) -> (u32, u32) {
        let slot = self.rng.below(self.box_slots.len() as u64) as u32;
        let data = self.box_slots.iter().find(|(_, s)| **s == slot).unwrap().0;
        (*data, slot)
    }

    /// On a lost handle the original panics, so that it is not asked.
    fn box_set(&mut self) -> Result<()> {
        let ((data, slot), b) = (self.some_box(), self.rectangle());
        if self.boxes.get(data).is_none() {
            return Ok(());
        }
        self.boxes.set_aabb(data, aabb(b));
        self.line(format!("bset,{slot},1,{},{},{},{}", b[0], b[1], b[2], b[3]), "0".to_string())
    }

    fn box_remove(&mut self) -> Result<()> {
        let (data, slot) = self.some_box();
        let answer = self.boxes.remove(data).map_or(GONE.to_string(), |data| format!("0,{data}"));
        self.line(format!("brem,{slot},1"), answer)
    }

    fn box_query(&mut self) -> Result<()> {
        let b = self.rectangle();
        let found = self.boxes.query(aabb(b));
        let mut answer = format!("0,{}", found.len());
        for (data, bits) in found {
            let [x, y, z, w] = bits.map(sixteenths);
            answer += &format!(",{},1,{x},{y},{z},{w}", self.box_slots[&data]);
        }
        self.line(format!("bqry,{},{},{},{}", b[0], b[1], b[2], b[3]), answer)
    }

    /// Both grids at one size: objects first, then everything else, so that no slot is used twice.
    fn section(&mut self, size: i64) -> Result<()> {
        self.cell(size)?;
        for _ in 0..16 {
            self.insert()?;
        }
        for _ in 0..8 {
            self.box_insert()?;
        }
        for _ in 0..70 {
            match self.rng.below(14) {
                0..=3 => self.position()?,
                4..=6 => self.query()?,
                7 => self.maintain()?,
                8 => {
                    let now = self.rng.once_in(2);
                    self.remove(now)?;
                }
                9..=10 => self.box_set()?,
                11 if self.rng.once_in(2) => self.box_remove()?,
                _ => self.box_query()?,
            }
        }
        self.maintain()?;
        self.query()
    }
}

/// Writes `stdin` and `stdout` to a folder.
pub fn write(folder: &Path) -> Result<()> {
    let mut sample = Sample {
        rng: Rng::new(SEED),
        records: BufWriter::new(File::create(folder.join("stdin"))?),
        answers: BufWriter::new(File::create(folder.join("stdout"))?),
        size: 1,
        points: OldPoints::new(1),
        boxes: OldBoxes::new(1),
        point_slots: HashMap::new(),
        box_slots: HashMap::new(),
        marked: BTreeSet::new(),
    };
    for size in SIZES {
        sample.section(size)?;
    }
    sample.records.flush()?;
    sample.answers.flush()
}
