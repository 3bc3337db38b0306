//! The tables that are lent to the port, by docs/TABLES.md. Binary32 numbers are kept as bits, so that equal means equal by bits.

#[derive(Clone, Debug, Default, PartialEq)]
pub struct PointTables {
    pub nums: Vec<[u32; 4]>,
    pub reals: Vec<[u32; 4]>,
    pub ints: Vec<[i32; 4]>,
    pub map: Vec<u64>,
    pub pool: Vec<[u64; 2]>,
    pub spots: Vec<[u32; 2]>,
    pub cells: Vec<[u64; 2]>,
}

#[derive(Clone, Debug, Default, PartialEq)]
pub struct BoxTables {
    pub nums: Vec<[u32; 4]>,
    pub reals: Vec<[u32; 4]>,
    pub map: Vec<u64>,
    pub pool: Vec<[u64; 2]>,
}

/// The words of the map for n slots.
pub fn map_words(n: usize) -> usize {
    3 + (n + 63) / 64
}

/// What stands in tables before building, and in outputs before a call: nothing that a call would write.
pub const DUST: u32 = 0xA5C3_96E1;
const WIDE_DUST: u64 = 0xA5C3_96E1_5A3C_691E;

impl PointTables {
    pub fn new(n: usize) -> Self {
        PointTables {
            nums: vec![[DUST; 4]; n],
            reals: vec![[DUST; 4]; n],
            ints: vec![[DUST as i32; 4]; n],
            map: vec![WIDE_DUST; map_words(n)],
            pool: vec![[WIDE_DUST; 2]; n],
            spots: vec![[DUST; 2]; n],
            cells: vec![[WIDE_DUST; 2]; n],
        }
    }

    /// Takes the other's numbers, without a new allocation where the lengths agree.
    pub fn copy_from(&mut self, other: &Self) {
        self.nums.clone_from(&other.nums);
        self.reals.clone_from(&other.reals);
        self.ints.clone_from(&other.ints);
        self.map.clone_from(&other.map);
        self.pool.clone_from(&other.pool);
        self.spots.clone_from(&other.spots);
        self.cells.clone_from(&other.cells);
    }

    /// What an accepted call may not touch: slots empty before and after it, rows past both counts.
    pub fn kept_idle_rows(&self, before: &Self) -> bool {
        let idle = |s: usize| before.nums[s][1] != 1 && self.nums[s][1] != 1;
        let same = |s: usize| self.nums[s] == before.nums[s] && self.reals[s] == before.reals[s] && self.ints[s] == before.ints[s];
        let used = self.map[1].max(before.map[1]) as usize;
        let rows = self.map[2].max(before.map[2]) as usize;
        (0..self.nums.len()).all(|s| !idle(s) || same(s))
            && self.pool[used..] == before.pool[used..]
            && self.spots[used..] == before.spots[used..]
            && self.cells[rows..] == before.cells[rows..]
    }
}

impl BoxTables {
    pub fn new(n: usize, pool: usize) -> Self {
        BoxTables {
            nums: vec![[DUST; 4]; n],
            reals: vec![[DUST; 4]; n],
            map: vec![WIDE_DUST; map_words(n)],
            pool: vec![[WIDE_DUST; 2]; pool],
        }
    }

    pub fn copy_from(&mut self, other: &Self) {
        self.nums.clone_from(&other.nums);
        self.reals.clone_from(&other.reals);
        self.map.clone_from(&other.map);
        self.pool.clone_from(&other.pool);
    }

    /// What an accepted call may not touch: slots empty before and after it, rows past both counts.
    pub fn kept_idle_rows(&self, before: &Self) -> bool {
        let idle = |s: usize| before.nums[s][1] != 1 && self.nums[s][1] != 1;
        let same = |s: usize| self.nums[s] == before.nums[s] && self.reals[s] == before.reals[s];
        let used = self.map[1].max(before.map[1]) as usize;
        (0..self.nums.len()).all(|s| !idle(s) || same(s)) && self.pool[used..] == before.pool[used..]
    }
}

/// Rows behind an output that no call may reach.
const GUARD: usize = 2;

/// An output of some places, filled with dust.
#[derive(Clone, Debug)]
pub struct Out<const W: usize> {
    rows: Vec<[u32; W]>,
    pub places: usize,
}

impl<const W: usize> Out<W> {
    pub fn new(places: usize) -> Self {
        Out { rows: vec![[DUST; W]; places + GUARD], places }
    }

    pub fn pointer(&mut self) -> *mut [u32; W] {
        self.rows.as_mut_ptr()
    }

    /// The output holds these rows, and every other place is as it was.
    pub fn holds(&self, filled: impl ExactSizeIterator<Item = [u32; W]>) -> bool {
        let count = filled.len();
        count <= self.places
            && self.rows.iter().zip(filled).all(|(row, wanted)| *row == wanted)
            && self.rows[count..].iter().all(|row| *row == [DUST; W])
    }

    pub fn rows(&self, count: usize) -> &[[u32; W]] {
        &self.rows[..count.min(self.places)]
    }

    pub fn fill(&mut self, rows: impl Iterator<Item = [u32; W]>) {
        self.rows.iter_mut().zip(rows).for_each(|(place, row)| *place = row);
    }

    /// Every word, the rows behind the output included.
    pub fn words(&self) -> Vec<u32> {
        self.rows.concat()
    }
}

/// The outputs of a point query: handles, recorded positions, data with trackers.
pub struct Outs {
    pub found: Out<2>,
    pub spots: Out<2>,
    pub objs: Out<2>,
}

impl Outs {
    pub fn new(lens: [usize; 3]) -> Self {
        Outs { found: Out::new(lens[0]), spots: Out::new(lens[1]), objs: Out::new(lens[2]) }
    }

    /// The places that every output of these lengths has.
    pub fn room(lens: &[usize; 3]) -> usize {
        lens[0].min(lens[1]).min(lens[2])
    }

    pub fn words(&self) -> Vec<Vec<u32>> {
        vec![self.found.words(), self.spots.words(), self.objs.words()]
    }
}
