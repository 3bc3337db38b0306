//! The original, run beside the port. Its handles are kept by data number, which is another for every object of a round.
use crate::box_reading::Aabb;
use crate::rules::Spot;
use flat_spatial::aabbgrid::AABBGridHandle;
use flat_spatial::grid::GridHandle;
use flat_spatial::{AABBGrid, Grid, AABB};
use std::collections::HashMap;

#[derive(Clone)]
pub struct OldPoints {
    pub grid: Grid<u32, [f32; 2]>,
    handles: HashMap<u32, GridHandle>,
}

fn pair(at: Spot) -> [f32; 2] {
    [at.x, at.y]
}

fn spot(at: [f32; 2]) -> Spot {
    Spot::new(at[0], at[1])
}

impl OldPoints {
    pub fn new(size: u32) -> Self {
        OldPoints { grid: Grid::new(size as i32), handles: HashMap::new() }
    }

    pub fn insert(&mut self, at: Spot, data: u32) {
        let handle = self.grid.insert(pair(at), data);
        self.handles.insert(data, handle);
    }

    /// The handle that the object with this data has, or had.
    pub fn handle(&self, data: u32) -> GridHandle {
        self.handles[&data]
    }

    pub fn set_position(&mut self, data: u32, at: Spot) {
        self.grid.set_position(self.handles[&data], pair(at));
    }

    pub fn remove(&mut self, data: u32) -> Option<u32> {
        self.grid.remove(self.handles[&data])
    }

    pub fn remove_maintain(&mut self, data: u32) -> Option<u32> {
        self.grid.remove_maintain(self.handles[&data])
    }

    pub fn get(&self, data: u32) -> Option<(Spot, u32)> {
        self.grid.get(self.handles[&data]).map(|(at, obj)| (spot(at), *obj))
    }

    /// Maintains, and counts by the original's own positions before and after it: the objects that are there both times and whose x or y is another number,
    /// as `f32` compares, and those that are gone.
    pub fn maintain(&mut self) -> (u32, u32) {
        let before: Vec<(GridHandle, [f32; 2])> = self.grid.handles().map(|h| (h, self.grid.get(h).unwrap().0)).collect();
        self.grid.maintain_deterministic();
        let moved = before.iter().filter(|(h, was)| self.grid.get(*h).map_or(false, |(is, _)| is[0] != was[0] || is[1] != was[1])).count();
        let gone = before.iter().filter(|(h, _)| self.grid.get(*h).is_none()).count();
        (moved as u32, gone as u32)
    }

    /// The data of all objects, sorted.
    pub fn all(&self) -> Vec<u32> {
        let mut all: Vec<u32> = self.grid.handles().map(|h| *self.grid.get(h).unwrap().1).collect();
        all.sort_unstable();
        all
    }

    /// The recorded positions of all objects.
    pub fn places(&self) -> Vec<Spot> {
        self.grid.handles().map(|h| spot(self.grid.get(h).unwrap().0)).collect()
    }

    /// Positions and data, sorted. A new grid then has no handle of before.
    pub fn clear(&mut self) -> Vec<(u32, [u32; 2])> {
        let mut all: Vec<_> = self.grid.clear().map(|(at, obj)| (obj, spot(at).bits())).collect();
        all.sort_unstable();
        self.handles.clear();
        all
    }

    /// Data and position of each finding, in the original's order.
    fn findings(&self, found: impl Iterator<Item = (GridHandle, [f32; 2])>) -> Vec<(u32, [u32; 2])> {
        found.map(|(h, at)| (*self.grid.get(h).unwrap().1, spot(at).bits())).collect()
    }

    pub fn query(&self, ll: Spot, ur: Spot) -> Vec<(u32, [u32; 2])> {
        self.findings(self.grid.query(pair(ll), pair(ur)))
    }

    pub fn query_aabb(&self, ll: Spot, ur: Spot) -> Vec<(u32, [u32; 2])> {
        self.findings(self.grid.query_aabb(pair(ll), pair(ur)))
    }

    pub fn query_around(&self, centre: Spot, r: f32) -> Vec<(u32, [u32; 2])> {
        self.findings(self.grid.query_around(pair(centre), r))
    }

    /// The original has no such call: of what its circle reports the one at the least squared distance, and of equally near ones that with the least slot,
    /// by the slots that are given.
    pub fn nearest(&self, centre: Spot, r: f32, slot: impl Fn(u32) -> u32) -> Option<(u32, [u32; 2])> {
        let near = |at: [u32; 2]| {
            let [x, y] = [f32::from_bits(at[0]) - centre.x, f32::from_bits(at[1]) - centre.y];
            x * x + y * y
        };
        let mut all = self.query_around(centre, r);
        all.sort_by(|(a, p), (b, q)| near(*p).partial_cmp(&near(*q)).unwrap().then(slot(*a).cmp(&slot(*b))));
        all.first().copied()
    }
}

/// A box as the original takes it.
#[derive(Clone, Copy)]
pub struct OldBox(Aabb);

impl AABB for OldBox {
    type V2 = [f32; 2];

    fn ll(&self) -> [f32; 2] {
        pair(self.0.ll)
    }

    fn ur(&self) -> [f32; 2] {
        pair(self.0.ur)
    }
}

#[derive(Clone)]
pub struct OldBoxes {
    pub grid: AABBGrid<u32, OldBox>,
    handles: HashMap<u32, AABBGridHandle>,
}

impl OldBoxes {
    pub fn new(size: u32) -> Self {
        OldBoxes { grid: AABBGrid::new(size as i32), handles: HashMap::new() }
    }

    pub fn insert(&mut self, aabb: Aabb, data: u32) {
        let handle = self.grid.insert(OldBox(aabb), data);
        self.handles.insert(data, handle);
    }

    pub fn set_aabb(&mut self, data: u32, aabb: Aabb) {
        self.grid.set_aabb(self.handles[&data], OldBox(aabb));
    }

    pub fn remove(&mut self, data: u32) -> Option<u32> {
        self.grid.remove(self.handles[&data])
    }

    pub fn get(&self, data: u32) -> Option<(Aabb, u32)> {
        self.grid.get(self.handles[&data]).map(|object| (object.aabb.0, object.obj))
    }

    pub fn all(&self) -> Vec<u32> {
        let mut all: Vec<u32> = self.grid.handles().map(|h| self.grid.get(h).unwrap().obj).collect();
        all.sort_unstable();
        all
    }

    pub fn clear(&mut self) -> Vec<(u32, [u32; 4])> {
        let mut all: Vec<_> = self.grid.clear().map(|(aabb, obj)| (obj, aabb.0.bits())).collect();
        all.sort_unstable();
        self.handles.clear();
        all
    }

    pub fn query_broad(&self, q: Aabb) -> Vec<u32> {
        self.grid.query_broad(OldBox(q)).map(|h| self.grid.get(h).unwrap().obj).collect()
    }

    pub fn query(&self, q: Aabb) -> Vec<(u32, [u32; 4])> {
        self.grid.query(OldBox(q)).map(|(_, aabb, obj)| (*obj, aabb.0.bits())).collect()
    }
}
