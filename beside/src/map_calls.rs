//! `fill_map` as data: circles and a length, made of the port and held to what is said of it.
use crate::log::Log;
use crate::map_reading::{answer, Circle, BLOCKS, SIDE};
use crate::places::{neighbour, wild, Ground, Kind};
use crate::port::call_fill_map;
use crate::random::Rng;
use crate::rules::*;
use crate::tables::{BoxTables, PointTables};

/// Where points, boxes and circles of maps stand.
pub const FRAME: Ground = Ground { kind: Kind::Frame, size: SIDE };

/// Bytes behind the map that no call may reach.
const GUARD: usize = 8;

/// The circles, and how many bytes are lent.
#[derive(Clone, Debug)]
pub struct MapCall {
    pub circles: Vec<Circle>,
    pub bytes: usize,
}

/// A circle that is accepted: by a point or anywhere, of a radius that is 0, tiny, just about the distance of a point, or of some blocks.
fn circle(spots: &[Spot], rng: &mut Rng) -> Circle {
    let some = |rng: &mut Rng| if spots.is_empty() || rng.once_in(3) { FRAME.spot(rng) } else { rng.pick(spots) };
    let (centre, to) = (some(rng), some(rng));
    let distance = (to.x - centre.x).hypot(to.y - centre.y);
    let r = match rng.below(6) {
        0 => rng.pick(&[0.0, -0.0, f32::from_bits(1), 1e-3]),
        1 | 2 if distance < 490.0 => neighbour(distance, rng.within(-2, 2)).abs(),
        _ => (rng.unit() * 120.0) as f32,
    };
    Circle { centre, r }
}

impl MapCall {
    /// Up to 17 circles, of which some may be bad, too wide or about as wide as they may be, in any order; a map that may be too short or too long.
    pub fn any(spots: &[Spot], rng: &mut Rng) -> Self {
        let count = if rng.once_in(5) { rng.pick(&[0, 1, 16, 17]) } else { rng.below(17) } as usize;
        let mut circles: Vec<Circle> = (0..count).map(|_| circle(spots, rng)).collect();
        if count > 0 {
            let mut some = |rng: &mut Rng, one_in: u64, change: fn(&mut Circle, &mut Rng)| {
                if rng.once_in(one_in) {
                    change(&mut circles[rng.below(count as u64) as usize], rng)
                }
            };
            some(rng, 4, |c, rng| c.r = (496.0 + rng.unit() * 20.0) as f32);
            some(rng, 5, |c, rng| c.r = rng.pick(&[600.0, 10_000.0, EDGE]));
            some(rng, 5, |c, rng| match rng.below(3) {
                0 => c.centre.x = wild(rng),
                1 => c.centre.y = wild(rng),
                _ if rng.once_in(2) => c.r = -c.r - 1.0,
                _ => c.r = wild(rng),
            });
        }
        let bytes = if rng.once_in(6) { rng.pick(&[0, 1, BLOCKS - 1, BLOCKS + 1, 2 * BLOCKS]) } else { BLOCKS };
        MapCall { circles, bytes }
    }

    /// What Req 05 answers, by the cell sizes of tables that hold a grid.
    pub fn answer(&self, points: Option<u32>, boxes: Option<u32>) -> u32 {
        answer(points, boxes, &self.circles, self.bytes)
    }

    /// Makes the call of the port: it gives this answer and, if it is 0, this map; a refusal leaves the map as it was, and no call writes a table.
    pub fn hold(&self, points: &PointTables, boxes: &BoxTables, answer: u32, map: impl FnOnce() -> Vec<u8>, rng: &mut Rng, log: &mut Log) {
        let circles: Vec<[f32; 3]> = self.circles.iter().map(|c| [c.centre.x, c.centre.y, c.r]).collect();
        let mut wanted: Vec<u8> = (0..self.bytes + GUARD).map(|_| rng.below(6) as u8).collect();
        let (mut p, mut b, mut bytes) = (points.clone(), boxes.clone(), wanted.clone());
        let got = call_fill_map(&mut p, &mut b, &circles, &mut bytes[..self.bytes]);
        log.call("encoder fill_map", got);
        log.hold(got == answer, || format!("fill_map of {self:?} gave {got}, Req 05 says {answer}"));
        log.hold(p == *points && b == *boxes, || "fill_map changed a table".to_string());
        if answer == DONE {
            wanted[..BLOCKS].copy_from_slice(&map());
            log.note("maps", 1);
            for (byte, name) in ["map: blocks of 0", "map: blocks of 1", "map: blocks of 2", "map: blocks of 3"].into_iter().enumerate() {
                log.note(name, wanted[..BLOCKS].iter().filter(|w| **w == byte as u8).count() as u64);
            }
        }
        let other = bytes.iter().zip(&wanted).position(|(got, wanted)| got != wanted);
        log.hold(other.is_none(), || {
            let k = other.unwrap();
            format!("fill_map of {self:?} answered {got} and left {} at byte {k}, where {} should be", bytes[k], wanted[k])
        });
    }
}
