//! The tables of a point grid of two slots, lent as C lends them: for what a `Grid` cannot be made to do, as tables that hold no grid and outputs too short.
#[allow(dead_code)]
#[path = "../../src/ffi.rs"]
pub mod ffi;

#[derive(Clone, Debug, Default, PartialEq)]
pub struct Lent {
    pub nums: [[u32; 4]; 2],
    pub reals: [[f32; 4]; 2],
    pub ints: [[i32; 4]; 2],
    pub map: [u64; 4],
    pub pool: [[u64; 2]; 2],
    pub spots: [[f32; 2]; 2],
    pub cells: [[u64; 2]; 2],
}

macro_rules! call {
    ($export:ident, $t:expr $(, $arg:expr)*) => {
        unsafe {
            crate::lent::ffi::$export(
                $t.nums.as_mut_ptr(), 2, $t.reals.as_mut_ptr(), 2, $t.ints.as_mut_ptr(), 2, $t.map.as_mut_ptr(), 4,
                $t.pool.as_mut_ptr(), 2, $t.spots.as_mut_ptr(), 2, $t.cells.as_mut_ptr(), 2 $(, $arg)*
            )
        }
    };
}
