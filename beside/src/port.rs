//! The port: the 26 calls of the static library, by include/chavrupas.h. A slice is two arguments, a pointer and the number of elements.
use crate::box_reading::Aabb;
use crate::point_reading::Deferred;
use crate::random::Rng;
use crate::rules::Spot;
use crate::slots::Handle;
use crate::tables::{BoxTables, Out, Outs, PointTables};

#[repr(C)]
#[derive(Clone, Copy, Debug, PartialEq)]
pub struct Inserted {
    pub answer: u32,
    pub slot: u32,
    pub version: u32,
}

#[repr(C)]
#[derive(Clone, Copy, Debug, PartialEq)]
pub struct Reply {
    pub answer: u32,
    pub obj: u32,
}

#[repr(C)]
#[derive(Clone, Copy, Debug, PartialEq)]
pub struct Count {
    pub answer: u32,
    pub count: u32,
}

#[repr(C)]
#[derive(Clone, Copy, Debug, PartialEq)]
pub struct BatchReply {
    pub answer: u32,
    pub count: u64,
}

#[repr(C)]
#[derive(Clone, Copy, Debug, PartialEq)]
pub struct Maintained {
    pub answer: u32,
    pub moved: u32,
    pub removed: u32,
}

#[repr(C)]
#[derive(Clone, Copy, Debug)]
pub struct PointGot {
    pub answer: u32,
    pub x: f32,
    pub y: f32,
    pub obj: u32,
    pub tracker: u32,
}

#[repr(C)]
#[derive(Clone, Copy, Debug)]
pub struct Nearest {
    pub answer: u32,
    pub count: u32,
    pub slot: u32,
    pub version: u32,
    pub x: f32,
    pub y: f32,
    pub obj: u32,
    pub tracker: u32,
}

impl Nearest {
    /// All that stands beside the answer, the position by bits.
    pub fn words(&self) -> [u32; 7] {
        [self.count, self.slot, self.version, self.x.to_bits(), self.y.to_bits(), self.obj, self.tracker]
    }
}

#[repr(C)]
#[derive(Clone, Copy, Debug)]
pub struct BoxGot {
    pub answer: u32,
    pub left: f32,
    pub low: f32,
    pub right: f32,
    pub high: f32,
    pub obj: u32,
}

type Rows<const W: usize> = *mut [u32; W];

/// Calls over the tables of a point grid.
macro_rules! over_points {
    ($(fn $name:ident($($arg:ident: $type:ty),*) -> $result:ty;)*) => {
        extern "C" {
            $(fn $name(
                nums: Rows<4>, nums_len: usize, reals: Rows<4>, reals_len: usize, ints: *mut [i32; 4], ints_len: usize,
                map: *mut u64, map_len: usize, pool: *mut [u64; 2], pool_len: usize, spots: Rows<2>, spots_len: usize,
                cells: *mut [u64; 2], cells_len: usize, $($arg: $type),*
            ) -> $result;)*
        }
    };
}

/// Calls over the tables of a box grid.
macro_rules! over_boxes {
    ($(fn $name:ident($($arg:ident: $type:ty),*) -> $result:ty;)*) => {
        extern "C" {
            $(fn $name(
                nums: Rows<4>, nums_len: usize, reals: Rows<4>, reals_len: usize,
                map: *mut u64, map_len: usize, pool: *mut [u64; 2], pool_len: usize, $($arg: $type),*
            ) -> $result;)*
        }
    };
}

over_points! {
    fn chavrupas_points_new(size: u32) -> u32;
    fn chavrupas_points_insert(x: f32, y: f32, obj: u32, tracker: u32) -> Inserted;
    fn chavrupas_points_set_position(slot: u32, version: u32, x: f32, y: f32, tracker: u32) -> u32;
    fn chavrupas_points_remove(slot: u32, version: u32, tracker: u32) -> Reply;
    fn chavrupas_points_batch(
        kinds: *const u32, kinds_len: usize, handles: *const [u32; 3], handles_len: usize,
        positions: *const [f32; 2], positions_len: usize, out: Rows<2>, out_len: usize
    ) -> BatchReply;
    fn chavrupas_points_maintain() -> Maintained;
    fn chavrupas_points_remove_maintain(slot: u32, version: u32, tracker: u32) -> Reply;
    fn chavrupas_points_clear(places: Rows<2>, places_len: usize, objs: Rows<2>, objs_len: usize) -> Count;
    fn chavrupas_points_get(slot: u32, version: u32) -> PointGot;
    fn chavrupas_points_len() -> Count;
    fn chavrupas_points_handles(out: Rows<2>, out_len: usize) -> Count;
    fn chavrupas_points_query(
        left: f32, low: f32, right: f32, high: f32, found: Rows<2>, found_len: usize,
        places: Rows<2>, places_len: usize, objs: Rows<2>, objs_len: usize
    ) -> Count;
    fn chavrupas_points_query_around(
        x: f32, y: f32, radius: f32, found: Rows<2>, found_len: usize,
        places: Rows<2>, places_len: usize, objs: Rows<2>, objs_len: usize
    ) -> Count;
    fn chavrupas_points_query_aabb(
        left: f32, low: f32, right: f32, high: f32, found: Rows<2>, found_len: usize,
        places: Rows<2>, places_len: usize, objs: Rows<2>, objs_len: usize
    ) -> Count;
    fn chavrupas_points_nearest(x: f32, y: f32, radius: f32) -> Nearest;
    fn chavrupas_encoder_fill_map(
        box_nums: Rows<4>, box_nums_len: usize, box_reals: Rows<4>, box_reals_len: usize,
        box_map: *mut u64, box_map_len: usize, box_pool: *mut [u64; 2], box_pool_len: usize,
        circles: *const [f32; 3], circles_len: usize, bytes: *mut u8, bytes_len: usize
    ) -> u32;
}

over_boxes! {
    fn chavrupas_boxes_new(size: u32) -> u32;
    fn chavrupas_boxes_insert(left: f32, low: f32, right: f32, high: f32, obj: u32) -> Inserted;
    fn chavrupas_boxes_set_aabb(slot: u32, version: u32, left: f32, low: f32, right: f32, high: f32) -> u32;
    fn chavrupas_boxes_remove(slot: u32, version: u32) -> Reply;
    fn chavrupas_boxes_clear(boxes: Rows<4>, boxes_len: usize, objs: Rows<1>, objs_len: usize) -> Count;
    fn chavrupas_boxes_get(slot: u32, version: u32) -> BoxGot;
    fn chavrupas_boxes_len() -> Count;
    fn chavrupas_boxes_handles(out: Rows<2>, out_len: usize) -> Count;
    fn chavrupas_boxes_query_broad(left: f32, low: f32, right: f32, high: f32, found: Rows<2>, found_len: usize) -> Count;
    fn chavrupas_boxes_query(
        left: f32, low: f32, right: f32, high: f32, found: Rows<2>, found_len: usize,
        boxes: Rows<4>, boxes_len: usize, objs: Rows<1>, objs_len: usize
    ) -> Count;
}

/// A call with the tables as they are: every pointer is that of a vector and every length is its own.
macro_rules! with_points {
    ($t:expr, $name:ident($($arg:expr),*)) => {
        unsafe {
            $name(
                $t.nums.as_mut_ptr(), $t.nums.len(), $t.reals.as_mut_ptr(), $t.reals.len(), $t.ints.as_mut_ptr(), $t.ints.len(),
                $t.map.as_mut_ptr(), $t.map.len(), $t.pool.as_mut_ptr(), $t.pool.len(), $t.spots.as_mut_ptr(), $t.spots.len(),
                $t.cells.as_mut_ptr(), $t.cells.len(), $($arg),*
            )
        }
    };
}

macro_rules! with_boxes {
    ($t:expr, $name:ident($($arg:expr),*)) => {
        unsafe {
            $name(
                $t.nums.as_mut_ptr(), $t.nums.len(), $t.reals.as_mut_ptr(), $t.reals.len(),
                $t.map.as_mut_ptr(), $t.map.len(), $t.pool.as_mut_ptr(), $t.pool.len(), $($arg),*
            )
        }
    };
}

/// The lists of a batch, which may be of unequal length.
#[derive(Clone, Debug, Default)]
pub struct BatchLists {
    pub kinds: Vec<u32>,
    pub handles: Vec<[u32; 3]>,
    pub positions: Vec<[f32; 2]>,
}

impl BatchLists {
    pub fn of(calls: &[Deferred]) -> Self {
        BatchLists {
            kinds: calls.iter().map(|c| c.kind).collect(),
            handles: calls.iter().map(|c| [c.handle.slot, c.handle.version, c.tracker]).collect(),
            positions: calls.iter().map(|c| [c.at.x, c.at.y]).collect(),
        }
    }

    /// One of the lists is one longer or one shorter than the others.
    pub fn uneven(&mut self, rng: &mut Rng) {
        match rng.below(6) {
            0 => self.kinds.push(0),
            1 => self.handles.push([0, 1, 0]),
            2 => self.positions.push([0.0, 0.0]),
            3 => drop(self.kinds.pop()),
            4 => drop(self.handles.pop()),
            _ => drop(self.positions.pop()),
        }
    }
}

/// The rectangle queries of points.
#[derive(Clone, Copy, Debug, PartialEq)]
pub enum Corners {
    Cells,
    Sorted,
}

impl PointTables {
    pub fn call_new(&mut self, size: u32) -> u32 {
        with_points!(self, chavrupas_points_new(size))
    }

    pub fn call_insert(&mut self, at: Spot, data: u32, tracker: u32) -> Inserted {
        with_points!(self, chavrupas_points_insert(at.x, at.y, data, tracker))
    }

    pub fn call_set_position(&mut self, h: Handle, at: Spot, tracker: u32) -> u32 {
        with_points!(self, chavrupas_points_set_position(h.slot, h.version, at.x, at.y, tracker))
    }

    pub fn call_remove(&mut self, h: Handle, tracker: u32) -> Reply {
        with_points!(self, chavrupas_points_remove(h.slot, h.version, tracker))
    }

    pub fn call_batch(&mut self, calls: &BatchLists, out: &mut Out<2>) -> BatchReply {
        let (k, h, p) = (&calls.kinds, &calls.handles, &calls.positions);
        with_points!(self, chavrupas_points_batch(k.as_ptr(), k.len(), h.as_ptr(), h.len(), p.as_ptr(), p.len(), out.pointer(), out.places))
    }

    pub fn call_maintain(&mut self) -> Maintained {
        with_points!(self, chavrupas_points_maintain())
    }

    pub fn call_remove_maintain(&mut self, h: Handle, tracker: u32) -> Reply {
        with_points!(self, chavrupas_points_remove_maintain(h.slot, h.version, tracker))
    }

    pub fn call_clear(&mut self, places: &mut Out<2>, objs: &mut Out<2>) -> Count {
        with_points!(self, chavrupas_points_clear(places.pointer(), places.places, objs.pointer(), objs.places))
    }

    pub fn call_get(&mut self, h: Handle) -> PointGot {
        with_points!(self, chavrupas_points_get(h.slot, h.version))
    }

    pub fn call_len(&mut self) -> Count {
        with_points!(self, chavrupas_points_len())
    }

    pub fn call_handles(&mut self, out: &mut Out<2>) -> Count {
        with_points!(self, chavrupas_points_handles(out.pointer(), out.places))
    }

    pub fn call_query(&mut self, kind: Corners, ll: Spot, ur: Spot, outs: &mut Outs) -> Count {
        let (f, fl, p, pl) = (outs.found.pointer(), outs.found.places, outs.spots.pointer(), outs.spots.places);
        let (o, ol) = (outs.objs.pointer(), outs.objs.places);
        match kind {
            Corners::Cells => with_points!(self, chavrupas_points_query(ll.x, ll.y, ur.x, ur.y, f, fl, p, pl, o, ol)),
            Corners::Sorted => with_points!(self, chavrupas_points_query_aabb(ll.x, ll.y, ur.x, ur.y, f, fl, p, pl, o, ol)),
        }
    }

    pub fn call_query_around(&mut self, centre: Spot, r: f32, outs: &mut Outs) -> Count {
        let (f, fl, p, pl) = (outs.found.pointer(), outs.found.places, outs.spots.pointer(), outs.spots.places);
        let (o, ol) = (outs.objs.pointer(), outs.objs.places);
        with_points!(self, chavrupas_points_query_around(centre.x, centre.y, r, f, fl, p, pl, o, ol))
    }

    pub fn call_nearest(&mut self, centre: Spot, r: f32) -> Nearest {
        with_points!(self, chavrupas_points_nearest(centre.x, centre.y, r))
    }
}

impl BoxTables {
    pub fn call_new(&mut self, size: u32) -> u32 {
        with_boxes!(self, chavrupas_boxes_new(size))
    }

    pub fn call_insert(&mut self, b: Aabb, data: u32) -> Inserted {
        with_boxes!(self, chavrupas_boxes_insert(b.ll.x, b.ll.y, b.ur.x, b.ur.y, data))
    }

    pub fn call_set_aabb(&mut self, h: Handle, b: Aabb) -> u32 {
        with_boxes!(self, chavrupas_boxes_set_aabb(h.slot, h.version, b.ll.x, b.ll.y, b.ur.x, b.ur.y))
    }

    pub fn call_remove(&mut self, h: Handle) -> Reply {
        with_boxes!(self, chavrupas_boxes_remove(h.slot, h.version))
    }

    pub fn call_clear(&mut self, boxes: &mut Out<4>, objs: &mut Out<1>) -> Count {
        with_boxes!(self, chavrupas_boxes_clear(boxes.pointer(), boxes.places, objs.pointer(), objs.places))
    }

    pub fn call_get(&mut self, h: Handle) -> BoxGot {
        with_boxes!(self, chavrupas_boxes_get(h.slot, h.version))
    }

    pub fn call_len(&mut self) -> Count {
        with_boxes!(self, chavrupas_boxes_len())
    }

    pub fn call_handles(&mut self, out: &mut Out<2>) -> Count {
        with_boxes!(self, chavrupas_boxes_handles(out.pointer(), out.places))
    }

    pub fn call_query_broad(&mut self, q: Aabb, found: &mut Out<2>) -> Count {
        let (f, fl) = (found.pointer(), found.places);
        with_boxes!(self, chavrupas_boxes_query_broad(q.ll.x, q.ll.y, q.ur.x, q.ur.y, f, fl))
    }

    pub fn call_query(&mut self, q: Aabb, found: &mut Out<2>, boxes: &mut Out<4>, objs: &mut Out<1>) -> Count {
        let (f, fl, b, bl) = (found.pointer(), found.places, boxes.pointer(), boxes.places);
        let (o, ol) = (objs.pointer(), objs.places);
        with_boxes!(self, chavrupas_boxes_query(q.ll.x, q.ll.y, q.ur.x, q.ur.y, f, fl, b, bl, o, ol))
    }
}

/// The call over both grids.
pub fn call_fill_map(points: &mut PointTables, boxes: &mut BoxTables, circles: &[[f32; 3]], bytes: &mut [u8]) -> u32 {
    let (n, r, m, p) = (&mut boxes.nums, &mut boxes.reals, &mut boxes.map, &mut boxes.pool);
    with_points!(
        points,
        chavrupas_encoder_fill_map(
            n.as_mut_ptr(),
            n.len(),
            r.as_mut_ptr(),
            r.len(),
            m.as_mut_ptr(),
            m.len(),
            p.as_mut_ptr(),
            p.len(),
            circles.as_ptr(),
            circles.len(),
            bytes.as_mut_ptr(),
            bytes.len()
        )
    )
}
