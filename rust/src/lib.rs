//! A grid of points and a grid of boxes on the plane, over a static library whose every call has a machine-checked proof.
//!
//! [`Grid`] and [`AabbGrid`] have the names and rules of flat_spatial's `Grid` and `AABBGrid`, with these differences: the number of slots is
//! given to `new` and all memory is taken there; coordinates are `[f32; 2]`, data is one `u32`; what is refused is a [`Refusal`] and never a
//! panic; queries take `&mut self`, since they put what they find into the grid's own memory, and give the data beside handle and position;
//! [`Grid::nearest`] is new, and takes `&self`. A point is that of one tracker, a number from 0 to 7 that `insert` is given; calls that move or remove a
//! point name a tracker, and another's are refused. [`encoder::fill_map`] is a layer above both grids: a byte for each block of a frame.
//!
//! ```
//! use chavrupas::Grid;
//!
//! # fn main() -> Result<(), chavrupas::Refusal> {
//! let mut grid = Grid::new(64, 4096)?; // cells of 64, 4,096 slots
//! let hand = grid.insert([100.0, 500.0], 1, 0)?; // data 1, of tracker 0
//! grid.insert([112.0, 508.0], 2, 0)?;
//! grid.set_position(hand, [2100.0, 500.0], 0)?; // pending
//! assert_eq!(grid.query_around([100.0, 500.0], 30.0)?.count(), 2);
//! assert_eq!(grid.maintain().moved, 1); // the frame ends
//! let found: Vec<u32> = grid.query_around([2100.0, 500.0], 30.0)?.map(|f| f.obj).collect();
//! assert_eq!(found, [1]);
//! # Ok(())
//! # }
//! ```
//!
//! # Linking
//! `tools/staticlib` in the repository writes `target/staticlib/libexports.a`, which the build script finds there; a folder that is elsewhere is
//! named in the environment variable `CHAVRUPAS_LIB`. x86-64 Linux only.
//!
//! # What is proved
//! The calls of the static library are; this crate is a thin layer of Rust over them, and is tested. Its `unsafe` code is one macro in each grid and
//! one in [`encoder`].
//!
//! Every call checks the tables of its grid first, which takes time in proportion to the slots: move many points with [`Grid::batch`], which checks
//! once. A call takes up to 140 KB of stack and no heap.
mod aabbgrid;
pub mod encoder;
mod ffi;
mod grid;
mod refusal;

pub use aabbgrid::{AabbGrid, FoundBox};
pub use grid::{Found, Grid, Kind, Maintained, Reply, Tracked};
pub use refusal::Refusal;

/// An object: a slot, and the slot's version while the object is in it. It is good until the object is taken out, and [`Refusal::Gone`] from then on; one
/// that was never given out is [`Refusal::NeverIssued`].
#[derive(Clone, Copy, Debug, Default, PartialEq, Eq, PartialOrd, Ord, Hash)]
#[repr(C)]
pub struct Handle {
    pub slot: u32,
    pub version: u32,
}

impl Handle {
    /// This point, as a call of this tracker names it.
    pub const fn by(self, tracker: u32) -> Tracked {
        Tracked { handle: self, tracker }
    }
}

/// A box: its lower left and upper right corner.
#[derive(Clone, Copy, Debug, Default, PartialEq)]
#[repr(C)]
pub struct Aabb {
    pub ll: [f32; 2],
    pub ur: [f32; 2],
}

impl Aabb {
    pub const fn new(ll: [f32; 2], ur: [f32; 2]) -> Aabb {
        Aabb { ll, ur }
    }
}

/// The words of the map for this many slots.
fn map_words(slots: usize) -> usize {
    3 + slots.div_ceil(64)
}

/// A table of this many rows, all zero.
fn rows<T: Clone + Default>(n: usize) -> Box<[T]> {
    vec![T::default(); n].into_boxed_slice()
}
