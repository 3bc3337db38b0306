use std::fmt;

use crate::ffi::*;
use crate::refusal::{answered, done};
use crate::{map_words, rows, Aabb, Handle, Refusal};

/// A grid of boxes: flat_spatial's `AABBGrid`, with the data a `u32`. Changes are at once; there is nothing to maintain.
///
/// ```
/// use chavrupas::{Aabb, AabbGrid, Refusal};
///
/// let mut grid = AabbGrid::new(10, 256, 8192)?; // cells of 10, 256 slots, a pool of 8,192 entries
/// let a = grid.insert(Aabb::new([0.0, 0.0], [10.0, 10.0]), 1)?;
/// let b = grid.insert(Aabb::new([10.0, 0.0], [20.0, 5.0]), 2)?;
/// let found: Vec<u32> = grid.query(grid.get(a)?.0)?.map(|f| f.obj).collect();
/// assert_eq!(found, [1, 2]); // they touch
/// grid.set_aabb(b, Aabb::new([50.0, 50.0], [60.0, 60.0]))?;
/// assert_eq!(grid.query_broad(Aabb::new([0.0, 0.0], [1.0, 1.0]))?, [a]);
/// assert_eq!(grid.remove(a)?, 1);
/// assert_eq!(grid.remove(a), Err(Refusal::Gone));
/// # Ok::<(), Refusal>(())
/// ```
#[derive(Clone)]
pub struct AabbGrid {
    pub(crate) nums: Box<[[u32; 4]]>,
    pub(crate) reals: Box<[Aabb]>,
    pub(crate) map: Box<[u64]>,
    pub(crate) pool: Box<[[u64; 2]]>,
    // where findings go: a place for each slot is always enough
    found: Box<[Handle]>,
    boxes: Box<[Aabb]>,
    objs: Box<[u32]>,
}

/// What a query finds: an object, its box and its data.
#[derive(Clone, Copy, Debug, PartialEq)]
pub struct FoundBox {
    pub handle: Handle,
    pub aabb: Aabb,
    pub obj: u32,
}

/// Calls an export with the four tables and what follows them.
/// Safe, since each pointer comes with the length of the same boxed slice, no two slices overlap, and a table that the export writes is had
/// by `as_mut_ptr` from a `&mut self`; the export itself refuses what it cannot use.
macro_rules! call {
    ($export:ident, $g:expr, $ptr:ident $(, $arg:expr)*) => {
        unsafe {
            $export(
                $g.nums.$ptr(), $g.nums.len(), $g.reals.$ptr(), $g.reals.len(), $g.map.$ptr(), $g.map.len(),
                $g.pool.$ptr(), $g.pool.len() $(, $arg)*
            )
        }
    };
}

// `is_empty` is not carried over
#[allow(clippy::len_without_is_empty)]
impl AabbGrid {
    /// The most slots that a grid can have.
    pub const MOST_SLOTS: usize = 256;
    /// The most entries that its pool can have.
    pub const MOST_ENTRIES: usize = 8192;

    /// An empty grid with cells of this size, room for this many objects, and this many entries: a box takes one for each cell that it covers.
    ///
    /// ```
    /// use chavrupas::{Aabb, AabbGrid, Refusal};
    /// let mut small = AabbGrid::new(10, 4, 3)?;
    /// assert_eq!(small.insert(Aabb::new([0.0, 0.0], [10.0, 10.0]), 1), Err(Refusal::PoolFull)); // it covers 4 cells
    /// assert_eq!(AabbGrid::new(10, 257, 3).err(), Some(Refusal::Tables));
    /// # Ok::<(), Refusal>(())
    /// ```
    pub fn new(cell_size: u32, slots: usize, entries: usize) -> Result<AabbGrid, Refusal> {
        // too many would be refused as well, but only after their memory is taken
        if slots > Self::MOST_SLOTS || entries > Self::MOST_ENTRIES {
            return Err(Refusal::Tables);
        }
        let mut g = AabbGrid {
            nums: rows(slots),
            reals: rows(slots),
            map: rows(map_words(slots)),
            pool: rows(entries),
            found: rows(slots),
            boxes: rows(slots),
            objs: rows(slots),
        };
        let answer = call!(chavrupas_boxes_new, g, as_mut_ptr, cell_size);
        answered(answer, g)
    }

    /// A new object, in the lowest usable slot; every cell that its box covers lists it.
    pub fn insert(&mut self, b: Aabb, obj: u32) -> Result<Handle, Refusal> {
        let r = call!(chavrupas_boxes_insert, self, as_mut_ptr, b.ll[0], b.ll[1], b.ur[0], b.ur[1], obj);
        answered(r.answer, Handle { slot: r.slot, version: r.version })
    }

    /// Another box for the object, at once.
    pub fn set_aabb(&mut self, h: Handle, b: Aabb) -> Result<(), Refusal> {
        let answer = call!(chavrupas_boxes_set_aabb, self, as_mut_ptr, h.slot, h.version, b.ll[0], b.ll[1], b.ur[0], b.ur[1]);
        answered(answer, ())
    }

    /// Takes the object out at once. Gives its data.
    pub fn remove(&mut self, h: Handle) -> Result<u32, Refusal> {
        call!(chavrupas_boxes_remove, self, as_mut_ptr, h.slot, h.version).result()
    }

    /// Empties the grid. Gives the box and the data of each object, ascending by slot. Each handle given out before is
    /// [`Refusal::Gone`] after it.
    pub fn clear(&mut self) -> impl ExactSizeIterator<Item = (Aabb, u32)> + '_ {
        let r = call!(chavrupas_boxes_clear, self, as_mut_ptr, self.boxes.as_mut_ptr(), self.boxes.len(), self.objs.as_mut_ptr(), self.objs.len());
        let n = done(r.answer, r.count as usize);
        self.boxes[..n].iter().copied().zip(self.objs[..n].iter().copied())
    }

    /// The box and the data of an object.
    pub fn get(&self, h: Handle) -> Result<(Aabb, u32), Refusal> {
        let r = call!(chavrupas_boxes_get, self, as_ptr, h.slot, h.version);
        answered(r.answer, (r.aabb, r.obj))
    }

    /// The number of objects.
    pub fn len(&self) -> usize {
        let r = call!(chavrupas_boxes_len, self, as_ptr);
        done(r.answer, r.count as usize)
    }

    /// The handles of all objects, ascending by slot.
    pub fn handles(&mut self) -> &[Handle] {
        let r = call!(chavrupas_boxes_handles, self, as_mut_ptr, self.found.as_mut_ptr(), self.found.len());
        &self.found[..done(r.answer, r.count as usize)]
    }

    /// The boxes that share a cell with `b`, each once.
    pub fn query_broad(&mut self, b: Aabb) -> Result<&[Handle], Refusal> {
        let r = call!(chavrupas_boxes_query_broad, self, as_mut_ptr, b.ll[0], b.ll[1], b.ur[0], b.ur[1], self.found.as_mut_ptr(), self.found.len());
        answered(r.answer, &self.found[..r.count as usize])
    }

    /// The boxes that `b` intersects, edges included, by a test in `f32`: rounding decides at the edges.
    pub fn query(&mut self, b: Aabb) -> Result<impl ExactSizeIterator<Item = FoundBox> + '_, Refusal> {
        let r = call!(
            chavrupas_boxes_query,
            self,
            as_mut_ptr,
            b.ll[0],
            b.ll[1],
            b.ur[0],
            b.ur[1],
            self.found.as_mut_ptr(),
            self.found.len(),
            self.boxes.as_mut_ptr(),
            self.boxes.len(),
            self.objs.as_mut_ptr(),
            self.objs.len()
        );
        let n = answered(r.answer, r.count as usize)?;
        let found = self.found[..n].iter().zip(&self.boxes[..n]).zip(&self.objs[..n]);
        Ok(found.map(|((&handle, &aabb), &obj)| FoundBox { handle, aabb, obj }))
    }
}

impl fmt::Debug for AabbGrid {
    fn fmt(&self, f: &mut fmt::Formatter<'_>) -> fmt::Result {
        let (slots, entries) = (self.nums.len(), self.pool.len());
        f.debug_struct("AabbGrid").field("slots", &slots).field("entries", &entries).field("len", &self.len()).finish_non_exhaustive()
    }
}
