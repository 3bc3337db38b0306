//! Req 05 read anew: the map for the encoder, block by block. A plain reading, not a fast one; it shares no text with the port.
use crate::box_reading::{Aabb, Boxes};
use crate::point_reading::Points;
use crate::rules::*;

pub const SIDE: u32 = 16;
pub const COLUMNS: usize = 80;
pub const BLOCKS: usize = 80 * 45;
const MOST_CIRCLES: usize = 16;

#[derive(Clone, Copy, Debug)]
pub struct Circle {
    pub centre: Spot,
    pub r: f32,
}

impl Circle {
    fn in_domain(&self) -> bool {
        self.centre.in_domain() && radius_in_domain(self.r)
    }

    fn range(&self) -> Range {
        let (Spot { x, y }, r) = (self.centre, self.r);
        Range::of(Spot::new(x - r, y - r), Spot::new(x + r, y + r), SIDE)
    }
}

/// The answer to a request: 3 of lengths, sizes and tables; then 6 of all circles; then 7 of all circles. The sizes are those of tables that hold a grid.
pub fn answer(points: Option<u32>, boxes: Option<u32>, circles: &[Circle], bytes: usize) -> u32 {
    let right = points == Some(SIDE) && boxes == Some(SIDE) && circles.len() <= MOST_CIRCLES && bytes == BLOCKS;
    let bad = circles.iter().any(|c| !c.in_domain());
    let wide = circles.iter().any(|c| c.in_domain() && c.range().count() > MOST_CELLS);
    first(&[(!right, TABLES), (bad, DOMAIN), (wide, CELLS)])
}

/// From corner to corner.
fn block(i: usize, j: usize) -> Aabb {
    let edge = |k: usize| (16 * k) as f32;
    Aabb { ll: Spot::new(edge(i), edge(j)), ur: Spot::new(edge(i + 1), edge(j + 1)) }
}

/// Left and top edge in, right and bottom out.
fn lies_in(at: Spot, b: Aabb) -> bool {
    b.ll.x <= at.x && at.x < b.ur.x && b.ll.y <= at.y && at.y < b.ur.y
}

/// Row by row from the block at (0, 0), by the positions that circles find, those of all points, and whether a box query finds something.
pub fn map(found: &[Spot], recorded: &[Spot], meets: impl Fn(Aabb) -> bool) -> Vec<u8> {
    let some = |spots: &[Spot], b: Aabb| spots.iter().any(|at| lies_in(*at, b));
    let byte = |b: Aabb| match () {
        _ if some(found, b) => 3,
        _ if meets(b) => 2,
        _ if some(recorded, b) => 1,
        _ => 0,
    };
    (0..BLOCKS).map(|k| byte(block(k % COLUMNS, k / COLUMNS))).collect()
}

/// The map of grids that are read by document 01.
pub fn of_readings(points: &Points, boxes: &Boxes, circles: &[Circle]) -> Vec<u8> {
    let found: Vec<Spot> = circles.iter().flat_map(|c| points.query_around(c.centre, c.r, usize::MAX).out).map(|f| f.at).collect();
    let recorded: Vec<Spot> = points.slots.objects().map(|(_, object)| object.at).collect();
    map(&found, &recorded, |b| boxes.query(b, usize::MAX).count > 0)
}
