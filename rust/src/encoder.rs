//! The map for the video encoder: a byte for each 16 by 16 block of a frame of 80 by 45 blocks, from a grid of points and a grid of boxes.
use crate::ffi::chavrupas_encoder_fill_map;
use crate::refusal::answered;
use crate::{AabbGrid, Grid, Refusal};

/// The side of a block, and the cell size that both grids must have.
pub const SIDE: u32 = 16;
/// The blocks of a row.
pub const COLUMNS: usize = 80;
/// The rows of the frame.
pub const ROWS: usize = 45;
/// The blocks of the frame, and the bytes of its map.
pub const BLOCKS: usize = 3_600;
/// The most circles of a call.
pub const MOST_CIRCLES: usize = 16;

/// Calls an export with slices that it reads and one that it writes.
/// Safe, since each pointer comes with the length of the same slice, and the one that is written is borrowed `&mut`, so that it overlaps no other; the
/// export itself refuses what it cannot use.
macro_rules! call {
    ($export:ident, $($read:expr),*; $written:expr) => {
        unsafe { $export($($read.as_ptr(), $read.len(),)* $written.as_mut_ptr(), $written.len()) }
    };
}

/// Fills the map. Byte `j * COLUMNS + i` is the block from (16 i, 16 j) to (16 i + 16, 16 j + 16). 3: a point that
/// [`query_around`](Grid::query_around) of some circle (x, y, radius) finds lies in it, left and top edge in, right and bottom out; else 2:
/// [`query`](AabbGrid::query) with its four corners finds a box; else 1: some point is recorded in it; else 0. What is pending does not count.
///
/// [`Refusal::Tables`] if the map is not of 3,600 bytes, a cell size is not 16 or there are more than 16 circles; then [`Refusal::OutsideDomain`] if
/// any circle is outside the domain; then [`Refusal::TooManyCells`] if any circle's range is too wide. The map is then as it was.
///
/// ```
/// use chavrupas::{encoder, Aabb, AabbGrid, Grid, Refusal};
///
/// let (mut points, mut boxes) = (Grid::new(encoder::SIDE, 8)?, AabbGrid::new(encoder::SIDE, 8, 64)?);
/// points.insert([100.0, 40.0], 1, 0)?; // block (6, 2)
/// points.insert([15.9, 16.0], 2, 0)?; // block (0, 1): the top edge is in
/// boxes.insert(Aabb::new([90.0, 40.0], [112.0, 44.0]), 3)?; // block (5, 2) to (7, 2), whose left edge it touches
/// let mut map = [0; encoder::BLOCKS];
/// encoder::fill_map(&points, &boxes, &[[110.0, 40.0, 30.0]], &mut map)?;
/// let told: Vec<_> = (0..encoder::BLOCKS).filter(|k| map[*k] > 0).map(|k| (k % encoder::COLUMNS, k / encoder::COLUMNS, map[k])).collect();
/// assert_eq!(told, [(0, 1, 1), (5, 2, 2), (6, 2, 3), (7, 2, 2)]);
/// assert_eq!(encoder::fill_map(&points, &boxes, &[], &mut map[1..]), Err(Refusal::Tables));
/// # Ok::<(), Refusal>(())
/// ```
pub fn fill_map(points: &Grid, boxes: &AabbGrid, circles: &[[f32; 3]], map: &mut [u8]) -> Result<(), Refusal> {
    let (p, b) = (points, boxes);
    let answer =
        call!(chavrupas_encoder_fill_map, p.nums, p.reals, p.ints, p.map, p.pool, p.spots, p.cells, b.nums, b.reals, b.map, b.pool, circles; map);
    answered(answer, ())
}
