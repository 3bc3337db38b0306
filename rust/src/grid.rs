use std::fmt;

use crate::ffi::*;
use crate::refusal::{answered, done};
use crate::{map_words, rows, Handle, Refusal};

/// A grid of points: flat_spatial's `Grid`, with the data a `u32`, and with a tracker for each point.
///
/// ```
/// use chavrupas::{Grid, Handle, Refusal};
///
/// let mut grid = Grid::new(10, 2)?;
/// let a = grid.insert([5.0, 3.0], 7, 2)?; // data 7, of tracker 2
/// assert_eq!(grid.get(a)?, ([5.0, 3.0], 7, 2));
/// assert_eq!(grid.insert([f32::NAN, 3.0], 8, 2), Err(Refusal::OutsideDomain));
/// assert_eq!(grid.remove(a, 1), Err(Refusal::OtherTracker));
/// assert_eq!(grid.remove(a, 2)?, 7); // marked
/// assert_eq!(grid.set_position(a, [0.0, 0.0], 2), Err(Refusal::Removed));
/// assert_eq!(grid.maintain().removed, 1); // taken out
/// assert_eq!(grid.get(a), Err(Refusal::Gone));
/// assert_eq!(grid.get(Handle { slot: 1, version: 1 }), Err(Refusal::NeverIssued));
/// # Ok::<(), Refusal>(())
/// ```
#[derive(Clone)]
pub struct Grid {
    pub(crate) nums: Box<[[u32; 4]]>,
    pub(crate) reals: Box<[[f32; 4]]>,
    pub(crate) ints: Box<[[i32; 4]]>,
    pub(crate) map: Box<[u64]>,
    pub(crate) pool: Box<[[u64; 2]]>,
    pub(crate) spots: Box<[[f32; 2]]>,
    pub(crate) cells: Box<[[u64; 2]]>,
    // where findings go: a place for each slot is always enough
    found: Box<[Handle]>,
    places: Box<[[f32; 2]]>,
    objs: Box<[[u32; 2]]>,
}

/// What a query finds: an object, its recorded position, its data and its tracker.
#[derive(Clone, Copy, Debug, PartialEq)]
pub struct Found {
    pub handle: Handle,
    pub position: [f32; 2],
    pub obj: u32,
    pub tracker: u32,
}

/// A point, and the tracker that a call names: [`Handle::by`] makes it.
#[derive(Clone, Copy, Debug, Default, PartialEq, Eq, PartialOrd, Ord, Hash)]
#[repr(C)]
pub struct Tracked {
    pub handle: Handle,
    pub tracker: u32,
}

/// What `maintain` has done: the objects whose position is another by its numbers than before (-0.0 and 0.0 are the same), and those that were
/// taken out.
#[derive(Clone, Copy, Debug, PartialEq, Eq)]
pub struct Maintained {
    pub moved: usize,
    pub removed: usize,
}

/// A deferred call of a batch.
#[derive(Clone, Copy, Debug, PartialEq, Eq)]
#[repr(u32)]
pub enum Kind {
    SetPosition = 0,
    Remove = 1,
}

/// What a call of a batch got: an answer number, and the data of a removed object.
#[derive(Clone, Copy, Debug, Default, PartialEq, Eq)]
#[repr(C)]
pub struct Reply {
    pub answer: u32,
    pub obj: u32,
}

impl Reply {
    /// As the call by itself would give it: the data of a removed object, 0 for a move. Panics on a number that no call answers.
    pub fn result(self) -> Result<u32, Refusal> {
        answered(self.answer, self.obj)
    }
}

/// Calls an export with the seven tables and what follows them.
/// Safe, since each pointer comes with the length of the same boxed or borrowed slice, no two slices overlap, and a table that the export
/// writes is had by `as_mut_ptr` from a `&mut self`; the export itself refuses what it cannot use.
macro_rules! call {
    ($export:ident, $g:expr, $ptr:ident $(, $arg:expr)*) => {
        unsafe {
            $export(
                $g.nums.$ptr(), $g.nums.len(), $g.reals.$ptr(), $g.reals.len(), $g.ints.$ptr(), $g.ints.len(), $g.map.$ptr(), $g.map.len(),
                $g.pool.$ptr(), $g.pool.len(), $g.spots.$ptr(), $g.spots.len(), $g.cells.$ptr(), $g.cells.len() $(, $arg)*
            )
        }
    };
}

// `is_empty` is not carried over
#[allow(clippy::len_without_is_empty)]
impl Grid {
    /// The most slots that a grid can have.
    pub const MOST_SLOTS: usize = 4096;
    /// The last number of a tracker; the first is 0.
    pub const LAST_TRACKER: u32 = 7;

    /// An empty grid with cells of this size and room for this many objects. The cell size should be about that of the queries.
    ///
    /// ```
    /// use chavrupas::{Grid, Refusal};
    /// assert_eq!(Grid::new(0, 64).err(), Some(Refusal::CellSize));
    /// assert_eq!(Grid::new(16, 0).err(), Some(Refusal::Tables));
    /// assert_eq!(Grid::new(16, 4097).err(), Some(Refusal::Tables));
    /// ```
    pub fn new(cell_size: u32, slots: usize) -> Result<Grid, Refusal> {
        // too many would be refused as well, but only after their memory is taken
        if slots > Self::MOST_SLOTS {
            return Err(Refusal::Tables);
        }
        let mut g = Grid {
            nums: rows(slots),
            reals: rows(slots),
            ints: rows(slots),
            map: rows(map_words(slots)),
            pool: rows(slots),
            spots: rows(slots),
            cells: rows(slots),
            found: rows(slots),
            places: rows(slots),
            objs: rows(slots),
        };
        let answer = call!(chavrupas_points_new, g, as_mut_ptr, cell_size);
        answered(answer, g)
    }

    /// A new object of this tracker, in the lowest usable slot. Queries see it at once.
    pub fn insert(&mut self, at: [f32; 2], obj: u32, tracker: u32) -> Result<Handle, Refusal> {
        let r = call!(chavrupas_points_insert, self, as_mut_ptr, at[0], at[1], obj, tracker);
        answered(r.answer, Handle { slot: r.slot, version: r.version })
    }

    /// Where the object, which is this tracker's, shall be after the next [`maintain`](Grid::maintain).
    pub fn set_position(&mut self, h: Handle, at: [f32; 2], tracker: u32) -> Result<(), Refusal> {
        let answer = call!(chavrupas_points_set_position, self, as_mut_ptr, h.slot, h.version, at[0], at[1], tracker);
        answered(answer, ())
    }

    /// Marks the object, which is this tracker's and which the next [`maintain`](Grid::maintain) takes out. Gives its data, and again if asked again.
    pub fn remove(&mut self, h: Handle, tracker: u32) -> Result<u32, Refusal> {
        call!(chavrupas_points_remove, self, as_mut_ptr, h.slot, h.version, tracker).result()
    }

    /// Takes the object, which is this tracker's, out now, whatever is pending for it. Gives its data.
    pub fn remove_maintain(&mut self, h: Handle, tracker: u32) -> Result<u32, Refusal> {
        call!(chavrupas_points_remove_maintain, self, as_mut_ptr, h.slot, h.version, tracker).result()
    }

    /// Deferred calls one after the other, with one check of the tables for all: `set_position` of `handles[i]` to `positions[i]`, or its
    /// `remove`, which does not look at the position; each by the tracker that stands beside the handle. Each call's reply goes to its place in `out`.
    /// Gives the number of calls. A batch whose lists differ in length, or with fewer places than calls, does nothing.
    ///
    /// ```
    /// use chavrupas::{Grid, Kind, Refusal, Reply};
    /// let mut grid = Grid::new(10, 8)?;
    /// let (left, right) = (grid.insert([0.0, 0.0], 1, 0)?, grid.insert([5.0, 5.0], 2, 1)?);
    /// let mut out = [Reply::default(); 3];
    /// let kinds = [Kind::SetPosition, Kind::SetPosition, Kind::Remove];
    /// grid.batch(&kinds, &[left.by(0), right.by(0), right.by(1)], &[[300.0, -0.5], [7.0, 7.0], [0.0, 0.0]], &mut out)?;
    /// assert_eq!(out.map(Reply::result), [Ok(0), Err(Refusal::OtherTracker), Ok(2)]);
    /// # Ok::<(), Refusal>(())
    /// ```
    pub fn batch(&mut self, kinds: &[Kind], handles: &[Tracked], positions: &[[f32; 2]], out: &mut [Reply]) -> Result<usize, Refusal> {
        let r = call!(
            chavrupas_points_batch,
            self,
            as_mut_ptr,
            kinds.as_ptr().cast(),
            kinds.len(),
            handles.as_ptr(),
            handles.len(),
            positions.as_ptr(),
            positions.len(),
            out.as_mut_ptr(),
            out.len()
        );
        answered(r.answer, r.count as usize)
    }

    /// Applies what is pending: moves and removals. An object that was sent where it is does not count as moved, but takes the bits that were sent.
    ///
    /// ```
    /// use chavrupas::{Grid, Refusal};
    /// let mut grid = Grid::new(10, 8)?;
    /// let hand = grid.insert([0.0, 5.0], 1, 0)?;
    /// grid.set_position(hand, [-0.0, 5.0], 0)?;
    /// assert_eq!(grid.maintain().moved, 0); // at rest
    /// assert!(grid.get(hand)?.0[0].is_sign_negative());
    /// grid.set_position(hand, [0.0, 5.5], 0)?;
    /// assert_eq!(grid.maintain().moved, 1);
    /// # Ok::<(), Refusal>(())
    /// ```
    pub fn maintain(&mut self) -> Maintained {
        let r = call!(chavrupas_points_maintain, self, as_mut_ptr);
        done(r.answer, Maintained { moved: r.moved as usize, removed: r.removed as usize })
    }

    /// Empties the grid. Gives the recorded position, the data and the tracker of each object, ascending by slot. Each handle given out before is
    /// [`Refusal::Gone`] after it.
    pub fn clear(&mut self) -> impl ExactSizeIterator<Item = ([f32; 2], u32, u32)> + '_ {
        let r = call!(chavrupas_points_clear, self, as_mut_ptr, self.places.as_mut_ptr(), self.places.len(), self.objs.as_mut_ptr(), self.objs.len());
        let n = done(r.answer, r.count as usize);
        self.places[..n].iter().zip(&self.objs[..n]).map(|(&at, &[obj, tracker])| (at, obj, tracker))
    }

    /// The recorded position, the data and the tracker of an object.
    pub fn get(&self, h: Handle) -> Result<([f32; 2], u32, u32), Refusal> {
        let r = call!(chavrupas_points_get, self, as_ptr, h.slot, h.version);
        answered(r.answer, ([r.x, r.y], r.obj, r.tracker))
    }

    /// The number of objects; removed ones count until [`maintain`](Grid::maintain).
    pub fn len(&self) -> usize {
        let r = call!(chavrupas_points_len, self, as_ptr);
        done(r.answer, r.count as usize)
    }

    /// The handles of all objects, ascending by slot.
    pub fn handles(&mut self) -> &[Handle] {
        let r = call!(chavrupas_points_handles, self, as_mut_ptr, self.found.as_mut_ptr(), self.found.len());
        &self.found[..done(r.answer, r.count as usize)]
    }

    /// Every object of the cells from that of `ll` to that of `ur`.
    ///
    /// ```
    /// use chavrupas::{Grid, Refusal};
    /// let mut grid = Grid::new(10, 8)?;
    /// grid.insert([5.0, 3.0], 7, 0)?;
    /// assert_eq!(grid.query([0.0, 0.0], [1.0, 1.0])?.len(), 1); // all of the cell
    /// assert_eq!(grid.query_aabb([0.0, 0.0], [1.0, 1.0])?.len(), 0); // the rectangle itself
    /// # Ok::<(), Refusal>(())
    /// ```
    pub fn query(&mut self, ll: [f32; 2], ur: [f32; 2]) -> Result<impl ExactSizeIterator<Item = Found> + '_, Refusal> {
        let r = call!(
            chavrupas_points_query,
            self,
            as_mut_ptr,
            ll[0],
            ll[1],
            ur[0],
            ur[1],
            self.found.as_mut_ptr(),
            self.found.len(),
            self.places.as_mut_ptr(),
            self.places.len(),
            self.objs.as_mut_ptr(),
            self.objs.len()
        );
        self.findings(r)
    }

    /// The objects strictly nearer to `centre` than `radius`, by a test in `f32`.
    pub fn query_around(&mut self, centre: [f32; 2], radius: f32) -> Result<impl ExactSizeIterator<Item = Found> + '_, Refusal> {
        let r = call!(
            chavrupas_points_query_around,
            self,
            as_mut_ptr,
            centre[0],
            centre[1],
            radius,
            self.found.as_mut_ptr(),
            self.found.len(),
            self.places.as_mut_ptr(),
            self.places.len(),
            self.objs.as_mut_ptr(),
            self.objs.len()
        );
        self.findings(r)
    }

    /// The objects of a rectangle, edges included. Its corners may come in any order.
    pub fn query_aabb(&mut self, a: [f32; 2], b: [f32; 2]) -> Result<impl ExactSizeIterator<Item = Found> + '_, Refusal> {
        let r = call!(
            chavrupas_points_query_aabb,
            self,
            as_mut_ptr,
            a[0],
            a[1],
            b[0],
            b[1],
            self.found.as_mut_ptr(),
            self.found.len(),
            self.places.as_mut_ptr(),
            self.places.len(),
            self.objs.as_mut_ptr(),
            self.objs.len()
        );
        self.findings(r)
    }

    /// The nearest of the objects that [`query_around`](Grid::query_around) finds, by squared distances in `f32`; of equally near ones that of the
    /// lowest slot. `None` where it finds none.
    ///
    /// ```
    /// use chavrupas::{Grid, Refusal};
    /// let mut grid = Grid::new(10, 8)?;
    /// grid.insert([5.0, 3.0], 7, 0)?;
    /// grid.insert([50.0, 3.0], 8, 0)?;
    /// assert_eq!(grid.nearest([40.0, 3.0], 100.0)?.map(|f| f.obj), Some(8));
    /// assert_eq!(grid.nearest([40.0, 3.0], 10.0)?, None); // nothing at distance 10 itself
    /// # Ok::<(), Refusal>(())
    /// ```
    pub fn nearest(&self, centre: [f32; 2], radius: f32) -> Result<Option<Found>, Refusal> {
        let r = call!(chavrupas_points_nearest, self, as_ptr, centre[0], centre[1], radius);
        let found = Found { handle: r.handle, position: r.position, obj: r.obj, tracker: r.tracker };
        answered(r.answer, (r.count == 1).then_some(found))
    }

    fn findings(&self, r: Count) -> Result<impl ExactSizeIterator<Item = Found> + '_, Refusal> {
        let n = answered(r.answer, r.count as usize)?;
        let found = self.found[..n].iter().zip(&self.places[..n]).zip(&self.objs[..n]);
        Ok(found.map(|((&handle, &position), &[obj, tracker])| Found { handle, position, obj, tracker }))
    }
}

impl fmt::Debug for Grid {
    fn fmt(&self, f: &mut fmt::Formatter<'_>) -> fmt::Result {
        f.debug_struct("Grid").field("slots", &self.nums.len()).field("len", &self.len()).finish_non_exhaustive()
    }
}
