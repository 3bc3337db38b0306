//! Document 01 read anew: the answers, with those of Reqs 03 and 07, the domain, the cell rule and ranges of cells.

/// The greatest magnitude of a coordinate, the greatest radius and the greatest cell size.
pub const EDGE: f32 = 1_048_576.0;
pub const MOST_CELLS: i64 = 4_096;
pub const LAST_VERSION: u32 = u32::MAX;
pub const LAST_TRACKER: u32 = 7;

pub const DONE: u32 = 0;
pub const MARKED: u32 = 1;
pub const SIZE: u32 = 2;
pub const TABLES: u32 = 3;
pub const FULL: u32 = 4;
pub const DOMAIN: u32 = 6;
pub const CELLS: u32 = 7;
pub const POOL: u32 = 8;
pub const OUTPUT: u32 = 9;
pub const NEVER_ISSUED: u32 = 11;
pub const GONE: u32 = 12;
pub const NO_TRACKER: u32 = 13;
pub const OTHER_TRACKER: u32 = 14;

/// Two binary32 numbers, equal when their bits are.
#[derive(Clone, Copy, Debug, Default)]
pub struct Spot {
    pub x: f32,
    pub y: f32,
}

impl PartialEq for Spot {
    fn eq(&self, other: &Self) -> bool {
        self.bits() == other.bits()
    }
}

impl Spot {
    pub fn new(x: f32, y: f32) -> Self {
        Spot { x, y }
    }

    pub fn of_bits(bits: [u32; 2]) -> Self {
        Spot::new(f32::from_bits(bits[0]), f32::from_bits(bits[1]))
    }

    pub fn bits(&self) -> [u32; 2] {
        [self.x.to_bits(), self.y.to_bits()]
    }

    /// Whether x or y is another number, as Req 06 compares: -0.0 and 0.0 are one, though their bits differ.
    pub fn elsewhere(&self, than: Spot) -> bool {
        self.x != than.x || self.y != than.y
    }

    pub fn in_domain(&self) -> bool {
        in_domain(self.x) && in_domain(self.y)
    }

    pub fn cell(&self, size: u32) -> Cell {
        Cell { y: cell_of(self.y, size), x: cell_of(self.x, size) }
    }
}

/// A cell; cells are in the order of a range: row by row, x fastest.
#[derive(Clone, Copy, Debug, PartialEq, Eq, PartialOrd, Ord)]
pub struct Cell {
    pub y: i64,
    pub x: i64,
}

impl Cell {
    /// The key that docs/TABLES.md gives to a cell.
    pub fn key(&self) -> u64 {
        (((self.y + (1 << 31)) as u64) << 32) + (self.x + (1 << 31)) as u64
    }
}

/// False of NaN and of the infinities.
pub fn in_domain(c: f32) -> bool {
    (-EDGE..=EDGE).contains(&c)
}

/// -0.0 counts as 0.
pub fn radius_in_domain(r: f32) -> bool {
    (0.0..=EDGE).contains(&r)
}

pub fn size_in_domain(size: u64) -> bool {
    (1..=1_048_576).contains(&size)
}

/// Drops the fraction, divides with the quotient toward zero, less one where the coordinate is below zero.
pub fn cell_of(c: f32, size: u32) -> i64 {
    let quotient = f64::from(c).trunc() as i64 / i64::from(size);
    if c < 0.0 {
        quotient - 1
    } else {
        quotient
    }
}

/// From the cell of the lower left to the cell of the upper right.
#[derive(Clone, Copy, Debug, PartialEq)]
pub struct Range {
    pub low: Cell,
    pub high: Cell,
}

impl Range {
    pub fn of(ll: Spot, ur: Spot, size: u32) -> Self {
        Range { low: ll.cell(size), high: ur.cell(size) }
    }

    /// The number of cells; none if either number is reversed.
    pub fn count(&self) -> i64 {
        let wide = (self.high.x - self.low.x + 1).max(0);
        let tall = (self.high.y - self.low.y + 1).max(0);
        wide * tall
    }

    /// The cells row by row, x fastest.
    pub fn cells(self) -> impl Iterator<Item = Cell> {
        (self.low.y..=self.high.y).flat_map(move |y| (self.low.x..=self.high.x).map(move |x| Cell { y, x }))
    }
}

/// The first answer that applies; tests are given in the order of the table.
pub fn first(tests: &[(bool, u32)]) -> u32 {
    tests.iter().find(|(applies, _)| *applies).map_or(DONE, |(_, answer)| *answer)
}
