//! The exports of the static library, as include/chavrupas.h declares them: each slice is a pointer, then its length in elements.
use crate::{Aabb, Handle, Reply, Tracked};

#[repr(C)]
pub struct Inserted {
    pub answer: u32,
    pub slot: u32,
    pub version: u32,
}

#[repr(C)]
pub struct Count {
    pub answer: u32,
    pub count: u32,
}

#[repr(C)]
pub struct Batched {
    pub answer: u32,
    pub count: u64,
}

#[repr(C)]
pub struct Kept {
    pub answer: u32,
    pub moved: u32,
    pub removed: u32,
}

#[repr(C)]
pub struct PointGot {
    pub answer: u32,
    pub x: f32,
    pub y: f32,
    pub obj: u32,
    pub tracker: u32,
}

#[repr(C)]
pub struct Nearest {
    pub answer: u32,
    pub count: u32,
    pub handle: Handle,
    pub position: [f32; 2],
    pub obj: u32,
    pub tracker: u32,
}

#[repr(C)]
pub struct BoxGot {
    pub answer: u32,
    pub aabb: Aabb,
    pub obj: u32,
}

extern "C" {
    pub fn chavrupas_points_new(
        nums: *mut [u32; 4],
        nums_n: usize,
        reals: *const [f32; 4],
        reals_n: usize,
        ints: *const [i32; 4],
        ints_n: usize,
        map: *mut u64,
        map_n: usize,
        pool: *const [u64; 2],
        pool_n: usize,
        spots: *const [f32; 2],
        spots_n: usize,
        cells: *const [u64; 2],
        cells_n: usize,
        size: u32,
    ) -> u32;

    pub fn chavrupas_points_insert(
        nums: *mut [u32; 4],
        nums_n: usize,
        reals: *mut [f32; 4],
        reals_n: usize,
        ints: *mut [i32; 4],
        ints_n: usize,
        map: *mut u64,
        map_n: usize,
        pool: *mut [u64; 2],
        pool_n: usize,
        spots: *mut [f32; 2],
        spots_n: usize,
        cells: *mut [u64; 2],
        cells_n: usize,
        x: f32,
        y: f32,
        obj: u32,
        tracker: u32,
    ) -> Inserted;

    pub fn chavrupas_points_set_position(
        nums: *mut [u32; 4],
        nums_n: usize,
        reals: *mut [f32; 4],
        reals_n: usize,
        ints: *mut [i32; 4],
        ints_n: usize,
        map: *const u64,
        map_n: usize,
        pool: *const [u64; 2],
        pool_n: usize,
        spots: *const [f32; 2],
        spots_n: usize,
        cells: *mut [u64; 2],
        cells_n: usize,
        slot: u32,
        version: u32,
        x: f32,
        y: f32,
        tracker: u32,
    ) -> u32;

    pub fn chavrupas_points_remove(
        nums: *mut [u32; 4],
        nums_n: usize,
        reals: *mut [f32; 4],
        reals_n: usize,
        ints: *mut [i32; 4],
        ints_n: usize,
        map: *const u64,
        map_n: usize,
        pool: *const [u64; 2],
        pool_n: usize,
        spots: *const [f32; 2],
        spots_n: usize,
        cells: *mut [u64; 2],
        cells_n: usize,
        slot: u32,
        version: u32,
        tracker: u32,
    ) -> Reply;

    pub fn chavrupas_points_batch(
        nums: *mut [u32; 4],
        nums_n: usize,
        reals: *mut [f32; 4],
        reals_n: usize,
        ints: *mut [i32; 4],
        ints_n: usize,
        map: *const u64,
        map_n: usize,
        pool: *const [u64; 2],
        pool_n: usize,
        spots: *const [f32; 2],
        spots_n: usize,
        cells: *mut [u64; 2],
        cells_n: usize,
        kinds: *const u32,
        kinds_n: usize,
        handles: *const Tracked,
        handles_n: usize,
        positions: *const [f32; 2],
        positions_n: usize,
        out: *mut Reply,
        out_n: usize,
    ) -> Batched;

    pub fn chavrupas_points_maintain(
        nums: *mut [u32; 4],
        nums_n: usize,
        reals: *mut [f32; 4],
        reals_n: usize,
        ints: *mut [i32; 4],
        ints_n: usize,
        map: *mut u64,
        map_n: usize,
        pool: *mut [u64; 2],
        pool_n: usize,
        spots: *mut [f32; 2],
        spots_n: usize,
        cells: *mut [u64; 2],
        cells_n: usize,
    ) -> Kept;

    pub fn chavrupas_points_remove_maintain(
        nums: *mut [u32; 4],
        nums_n: usize,
        reals: *const [f32; 4],
        reals_n: usize,
        ints: *const [i32; 4],
        ints_n: usize,
        map: *mut u64,
        map_n: usize,
        pool: *mut [u64; 2],
        pool_n: usize,
        spots: *mut [f32; 2],
        spots_n: usize,
        cells: *mut [u64; 2],
        cells_n: usize,
        slot: u32,
        version: u32,
        tracker: u32,
    ) -> Reply;

    pub fn chavrupas_points_clear(
        nums: *mut [u32; 4],
        nums_n: usize,
        reals: *const [f32; 4],
        reals_n: usize,
        ints: *const [i32; 4],
        ints_n: usize,
        map: *mut u64,
        map_n: usize,
        pool: *const [u64; 2],
        pool_n: usize,
        spots: *const [f32; 2],
        spots_n: usize,
        cells: *const [u64; 2],
        cells_n: usize,
        places: *mut [f32; 2],
        places_n: usize,
        objs: *mut [u32; 2],
        objs_n: usize,
    ) -> Count;

    pub fn chavrupas_points_get(
        nums: *const [u32; 4],
        nums_n: usize,
        reals: *const [f32; 4],
        reals_n: usize,
        ints: *const [i32; 4],
        ints_n: usize,
        map: *const u64,
        map_n: usize,
        pool: *const [u64; 2],
        pool_n: usize,
        spots: *const [f32; 2],
        spots_n: usize,
        cells: *const [u64; 2],
        cells_n: usize,
        slot: u32,
        version: u32,
    ) -> PointGot;

    pub fn chavrupas_points_len(
        nums: *const [u32; 4],
        nums_n: usize,
        reals: *const [f32; 4],
        reals_n: usize,
        ints: *const [i32; 4],
        ints_n: usize,
        map: *const u64,
        map_n: usize,
        pool: *const [u64; 2],
        pool_n: usize,
        spots: *const [f32; 2],
        spots_n: usize,
        cells: *const [u64; 2],
        cells_n: usize,
    ) -> Count;

    pub fn chavrupas_points_handles(
        nums: *const [u32; 4],
        nums_n: usize,
        reals: *const [f32; 4],
        reals_n: usize,
        ints: *const [i32; 4],
        ints_n: usize,
        map: *const u64,
        map_n: usize,
        pool: *const [u64; 2],
        pool_n: usize,
        spots: *const [f32; 2],
        spots_n: usize,
        cells: *const [u64; 2],
        cells_n: usize,
        out: *mut Handle,
        out_n: usize,
    ) -> Count;

    pub fn chavrupas_points_query(
        nums: *const [u32; 4],
        nums_n: usize,
        reals: *const [f32; 4],
        reals_n: usize,
        ints: *const [i32; 4],
        ints_n: usize,
        map: *const u64,
        map_n: usize,
        pool: *const [u64; 2],
        pool_n: usize,
        spots: *const [f32; 2],
        spots_n: usize,
        cells: *const [u64; 2],
        cells_n: usize,
        left: f32,
        low: f32,
        right: f32,
        high: f32,
        found: *mut Handle,
        found_n: usize,
        places: *mut [f32; 2],
        places_n: usize,
        objs: *mut [u32; 2],
        objs_n: usize,
    ) -> Count;

    pub fn chavrupas_points_query_around(
        nums: *const [u32; 4],
        nums_n: usize,
        reals: *const [f32; 4],
        reals_n: usize,
        ints: *const [i32; 4],
        ints_n: usize,
        map: *const u64,
        map_n: usize,
        pool: *const [u64; 2],
        pool_n: usize,
        spots: *const [f32; 2],
        spots_n: usize,
        cells: *const [u64; 2],
        cells_n: usize,
        x: f32,
        y: f32,
        radius: f32,
        found: *mut Handle,
        found_n: usize,
        places: *mut [f32; 2],
        places_n: usize,
        objs: *mut [u32; 2],
        objs_n: usize,
    ) -> Count;

    pub fn chavrupas_points_query_aabb(
        nums: *const [u32; 4],
        nums_n: usize,
        reals: *const [f32; 4],
        reals_n: usize,
        ints: *const [i32; 4],
        ints_n: usize,
        map: *const u64,
        map_n: usize,
        pool: *const [u64; 2],
        pool_n: usize,
        spots: *const [f32; 2],
        spots_n: usize,
        cells: *const [u64; 2],
        cells_n: usize,
        left: f32,
        low: f32,
        right: f32,
        high: f32,
        found: *mut Handle,
        found_n: usize,
        places: *mut [f32; 2],
        places_n: usize,
        objs: *mut [u32; 2],
        objs_n: usize,
    ) -> Count;

    pub fn chavrupas_points_nearest(
        nums: *const [u32; 4],
        nums_n: usize,
        reals: *const [f32; 4],
        reals_n: usize,
        ints: *const [i32; 4],
        ints_n: usize,
        map: *const u64,
        map_n: usize,
        pool: *const [u64; 2],
        pool_n: usize,
        spots: *const [f32; 2],
        spots_n: usize,
        cells: *const [u64; 2],
        cells_n: usize,
        x: f32,
        y: f32,
        radius: f32,
    ) -> Nearest;

    pub fn chavrupas_boxes_new(
        nums: *mut [u32; 4],
        nums_n: usize,
        reals: *const Aabb,
        reals_n: usize,
        map: *mut u64,
        map_n: usize,
        pool: *const [u64; 2],
        pool_n: usize,
        size: u32,
    ) -> u32;

    pub fn chavrupas_boxes_insert(
        nums: *mut [u32; 4],
        nums_n: usize,
        reals: *mut Aabb,
        reals_n: usize,
        map: *mut u64,
        map_n: usize,
        pool: *mut [u64; 2],
        pool_n: usize,
        left: f32,
        low: f32,
        right: f32,
        high: f32,
        obj: u32,
    ) -> Inserted;

    pub fn chavrupas_boxes_set_aabb(
        nums: *const [u32; 4],
        nums_n: usize,
        reals: *mut Aabb,
        reals_n: usize,
        map: *mut u64,
        map_n: usize,
        pool: *mut [u64; 2],
        pool_n: usize,
        slot: u32,
        version: u32,
        left: f32,
        low: f32,
        right: f32,
        high: f32,
    ) -> u32;

    pub fn chavrupas_boxes_remove(
        nums: *mut [u32; 4],
        nums_n: usize,
        reals: *const Aabb,
        reals_n: usize,
        map: *mut u64,
        map_n: usize,
        pool: *mut [u64; 2],
        pool_n: usize,
        slot: u32,
        version: u32,
    ) -> Reply;

    pub fn chavrupas_boxes_clear(
        nums: *mut [u32; 4],
        nums_n: usize,
        reals: *const Aabb,
        reals_n: usize,
        map: *mut u64,
        map_n: usize,
        pool: *const [u64; 2],
        pool_n: usize,
        boxes: *mut Aabb,
        boxes_n: usize,
        objs: *mut u32,
        objs_n: usize,
    ) -> Count;

    pub fn chavrupas_boxes_get(
        nums: *const [u32; 4],
        nums_n: usize,
        reals: *const Aabb,
        reals_n: usize,
        map: *const u64,
        map_n: usize,
        pool: *const [u64; 2],
        pool_n: usize,
        slot: u32,
        version: u32,
    ) -> BoxGot;

    pub fn chavrupas_boxes_len(
        nums: *const [u32; 4],
        nums_n: usize,
        reals: *const Aabb,
        reals_n: usize,
        map: *const u64,
        map_n: usize,
        pool: *const [u64; 2],
        pool_n: usize,
    ) -> Count;

    pub fn chavrupas_boxes_handles(
        nums: *const [u32; 4],
        nums_n: usize,
        reals: *const Aabb,
        reals_n: usize,
        map: *const u64,
        map_n: usize,
        pool: *const [u64; 2],
        pool_n: usize,
        out: *mut Handle,
        out_n: usize,
    ) -> Count;

    pub fn chavrupas_boxes_query_broad(
        nums: *const [u32; 4],
        nums_n: usize,
        reals: *const Aabb,
        reals_n: usize,
        map: *const u64,
        map_n: usize,
        pool: *const [u64; 2],
        pool_n: usize,
        left: f32,
        low: f32,
        right: f32,
        high: f32,
        found: *mut Handle,
        found_n: usize,
    ) -> Count;

    pub fn chavrupas_boxes_query(
        nums: *const [u32; 4],
        nums_n: usize,
        reals: *const Aabb,
        reals_n: usize,
        map: *const u64,
        map_n: usize,
        pool: *const [u64; 2],
        pool_n: usize,
        left: f32,
        low: f32,
        right: f32,
        high: f32,
        found: *mut Handle,
        found_n: usize,
        boxes: *mut Aabb,
        boxes_n: usize,
        objs: *mut u32,
        objs_n: usize,
    ) -> Count;

    pub fn chavrupas_encoder_fill_map(
        nums: *const [u32; 4],
        nums_n: usize,
        reals: *const [f32; 4],
        reals_n: usize,
        ints: *const [i32; 4],
        ints_n: usize,
        map: *const u64,
        map_n: usize,
        pool: *const [u64; 2],
        pool_n: usize,
        spots: *const [f32; 2],
        spots_n: usize,
        cells: *const [u64; 2],
        cells_n: usize,
        box_nums: *const [u32; 4],
        box_nums_n: usize,
        box_reals: *const Aabb,
        box_reals_n: usize,
        box_map: *const u64,
        box_map_n: usize,
        box_pool: *const [u64; 2],
        box_pool_n: usize,
        circles: *const [f32; 3],
        circles_n: usize,
        bytes: *mut u8,
        bytes_n: usize,
    ) -> u32;
}
