//! Damage to tables: a word set to another value, lengths wrong by one or outside their limits, rows exchanged or doubled, bits of the map past the last slot.
use crate::random::Rng;
use crate::tables::{map_words, BoxTables, PointTables};

/// A word of a table.
pub enum Word<'a> {
    Narrow(&'a mut u32),
    /// The tracker and the state of a point.
    Whose(&'a mut u32),
    Signed(&'a mut i32),
    Wide(&'a mut u64),
}

/// What a word is set to in turn, by its number.
pub const VALUES: usize = 12;

impl Word<'_> {
    /// 0, 1, the value plus and minus one, the top values, NaN and the infinities, the other sign, and two neighbours in meaning.
    pub fn set(self, no: usize) {
        let narrow = |v: u32| {
            let values = [0, 1, v.wrapping_add(1), v.wrapping_sub(1), u32::MAX, 0x7FC0_0000, 0x7F80_0000, 0xFF80_0000];
            let more = [v ^ 0x8000_0000, 0x7FFF_FFFF, 2, v ^ 2];
            values.into_iter().chain(more).nth(no).unwrap()
        };
        match self {
            Word::Narrow(v) => *v = narrow(*v),
            Word::Whose(v) => {
                // The last that may be, the ones behind it, another state, another tracker, and that state of a tracker above 7.
                let old = *v;
                let values = [0, 1, 31, 32, 35, old.wrapping_add(1), old.wrapping_sub(1), old ^ 2, old ^ 4, old.wrapping_add(32)];
                *v = values.into_iter().chain([old ^ 0x8000_0000, u32::MAX]).nth(no).unwrap();
            }
            Word::Signed(v) => *v = narrow(*v as u32) as i32,
            Word::Wide(v) => {
                let old = *v;
                let values = [0, 1, old.wrapping_add(1), old.wrapping_sub(1), u64::MAX, 0x7FF8 << 48, 0x7FF0 << 48, 0xFFF0 << 48];
                let more = [old ^ 1 << 63, old.wrapping_add(1 << 32), old.wrapping_sub(1 << 32), old ^ 2];
                *v = values.into_iter().chain(more).nth(no).unwrap();
            }
        }
    }

    pub fn randomize(self, rng: &mut Rng) {
        match self {
            Word::Narrow(v) | Word::Whose(v) => *v = rng.bits() >> rng.below(32),
            Word::Signed(v) => *v = rng.bits() as i32 >> rng.below(32),
            Word::Wide(v) => *v = rng.word() >> rng.below(64),
        }
    }
}

/// Tables that can be damaged.
pub trait Ruin {
    fn words(&self) -> usize;

    fn word(&mut self, i: usize) -> Word<'_>;

    fn tables(&self) -> usize;

    /// One row more or one fewer in a table.
    fn relength(&mut self, table: usize, longer: bool);

    /// Lengths that agree with each other and are outside their limits.
    fn misfits(&self) -> Vec<Self>
    where
        Self: Sized;

    /// Rows exchanged, rows doubled, keys doubled, counts shifted with them, bits of the map past the last slot.
    fn rearrange(&mut self, rng: &mut Rng);
}

/// The row and the place in it of a word of one of several tables, or what is left of its number.
fn row_of(i: &mut usize, rows: usize, width: usize) -> Option<(usize, usize)> {
    if *i < rows * width {
        Some((*i / width, *i % width))
    } else {
        *i -= rows * width;
        None
    }
}

fn relength_one<T: Clone>(table: &mut Vec<T>, longer: bool) {
    match table.last().cloned() {
        Some(row) if longer => table.push(row),
        _ => drop(table.pop()),
    }
}

/// Two of the first `used` rows; both the same if there is but one.
fn two(rng: &mut Rng, used: u64, rows: usize) -> Option<(usize, usize)> {
    let used = used.min(rows as u64);
    (used > 0).then(|| (rng.below(used) as usize, rng.below(used) as usize))
}

/// A bit of the map past the last slot, or of any slot.
fn flip_bit(map: &mut [u64], n: usize, rng: &mut Rng) {
    let bits = (map.len().saturating_sub(3) * 64) as u64;
    if bits == 0 {
        return;
    }
    let past = if n as u64 >= bits || rng.once_in(3) { rng.below(bits) } else { n as u64 + rng.below(bits - n as u64) };
    map[3 + past as usize / 64] ^= 1 << (past % 64);
}

impl Ruin for PointTables {
    fn words(&self) -> usize {
        (self.nums.len() + self.reals.len() + self.ints.len()) * 4
            + self.map.len()
            + (self.pool.len() + self.spots.len() + self.cells.len()) * 2
    }

    fn word(&mut self, i: usize) -> Word<'_> {
        let mut i = i;
        if let Some((row, place)) = row_of(&mut i, self.nums.len(), 4) {
            let word = &mut self.nums[row][place];
            return if place == 3 { Word::Whose(word) } else { Word::Narrow(word) };
        }
        if let Some((row, place)) = row_of(&mut i, self.reals.len(), 4) {
            return Word::Narrow(&mut self.reals[row][place]);
        }
        if let Some((row, place)) = row_of(&mut i, self.ints.len(), 4) {
            return Word::Signed(&mut self.ints[row][place]);
        }
        if let Some((row, _)) = row_of(&mut i, self.map.len(), 1) {
            return Word::Wide(&mut self.map[row]);
        }
        if let Some((row, place)) = row_of(&mut i, self.pool.len(), 2) {
            return Word::Wide(&mut self.pool[row][place]);
        }
        if let Some((row, place)) = row_of(&mut i, self.spots.len(), 2) {
            return Word::Narrow(&mut self.spots[row][place]);
        }
        Word::Wide(&mut self.cells[i / 2][i % 2])
    }

    fn tables(&self) -> usize {
        7
    }

    fn relength(&mut self, table: usize, longer: bool) {
        match table {
            0 => relength_one(&mut self.nums, longer),
            1 => relength_one(&mut self.reals, longer),
            2 => relength_one(&mut self.ints, longer),
            3 => relength_one(&mut self.map, longer),
            4 => relength_one(&mut self.pool, longer),
            5 => relength_one(&mut self.spots, longer),
            _ => relength_one(&mut self.cells, longer),
        }
    }

    fn misfits(&self) -> Vec<Self> {
        let of_slots = |n: usize| {
            let mut t = self.clone();
            t.nums.resize(n, [1, 0, 0, 0]);
            t.reals.resize(n, [0; 4]);
            t.ints.resize(n, [0; 4]);
            t.map.resize(map_words(n), u64::MAX);
            t.pool.resize(n, [0; 2]);
            t.spots.resize(n, [0; 2]);
            t.cells.resize(n, [0; 2]);
            t
        };
        vec![of_slots(0), of_slots(4_097)]
    }

    fn rearrange(&mut self, rng: &mut Rng) {
        let entries = two(rng, self.map[1], self.pool.len());
        let rows = two(rng, self.map[2], self.cells.len());
        match (rng.below(12), entries, rows) {
            (0, Some((i, j)), _) => {
                self.pool.swap(i, j);
                self.spots.swap(i, j);
            }
            (1, Some((i, j)), _) => self.pool.swap(i, j),
            (2, Some((i, j)), _) => self.spots.swap(i, j),
            (3, Some((i, j)), _) => self.pool[i][0] = self.pool[j][0],
            (4, Some((i, j)), _) => self.pool[i][1] = self.pool[j][1],
            (5, Some((i, j)), _) => {
                self.pool[i] = self.pool[j];
                self.spots[i] = self.spots[j];
            }
            (6, _, Some((i, j))) => self.cells.swap(i, j),
            (7, _, Some((i, j))) => self.cells[i][0] = self.cells[j][0],
            (8, Some((i, _)), _) if (self.map[1] as usize) < self.pool.len() => {
                // An entry doubled behind the last one, with its position, and counted.
                let used = self.map[1] as usize;
                self.pool[used] = self.pool[i];
                self.spots[used] = self.spots[i];
                self.map[1] += 1;
            }
            (9, _, Some((_, j))) if (self.map[2] as usize) < self.cells.len() => {
                let rows = self.map[2] as usize;
                self.cells[rows] = self.cells[j];
                self.map[2] += 1;
            }
            (10, Some((i, j)), _) => {
                // Two objects exchange their slots in the lists, with their positions.
                let (a, b) = (self.pool[i][1], self.pool[j][1]);
                self.pool[i][1] = b;
                self.pool[j][1] = a;
                self.spots.swap(i, j);
            }
            _ => flip_bit(&mut self.map, self.nums.len(), rng),
        }
    }
}

impl Ruin for BoxTables {
    fn words(&self) -> usize {
        (self.nums.len() + self.reals.len()) * 4 + self.map.len() + self.pool.len() * 2
    }

    fn word(&mut self, i: usize) -> Word<'_> {
        let mut i = i;
        if let Some((row, place)) = row_of(&mut i, self.nums.len(), 4) {
            return Word::Narrow(&mut self.nums[row][place]);
        }
        if let Some((row, place)) = row_of(&mut i, self.reals.len(), 4) {
            return Word::Narrow(&mut self.reals[row][place]);
        }
        if let Some((row, _)) = row_of(&mut i, self.map.len(), 1) {
            return Word::Wide(&mut self.map[row]);
        }
        Word::Wide(&mut self.pool[i / 2][i % 2])
    }

    fn tables(&self) -> usize {
        4
    }

    fn relength(&mut self, table: usize, longer: bool) {
        match table {
            0 => relength_one(&mut self.nums, longer),
            1 => relength_one(&mut self.reals, longer),
            2 => relength_one(&mut self.map, longer),
            _ => relength_one(&mut self.pool, longer),
        }
    }

    fn misfits(&self) -> Vec<Self> {
        let of_slots = |n: usize, pool: usize| {
            let mut t = self.clone();
            t.nums.resize(n, [1, 0, 0, 0]);
            t.reals.resize(n, [0; 4]);
            t.map.resize(map_words(n), u64::MAX);
            t.pool.resize(pool, [0; 2]);
            t
        };
        let (n, pool) = (self.nums.len(), self.pool.len());
        vec![of_slots(0, pool), of_slots(257, pool), of_slots(n, 0), of_slots(n, 8_193)]
    }

    fn rearrange(&mut self, rng: &mut Rng) {
        let entries = two(rng, self.map[1], self.pool.len());
        match (rng.below(8), entries) {
            (0, Some((i, j))) => self.pool.swap(i, j),
            (1, Some((i, j))) => self.pool[i][0] = self.pool[j][0],
            (2, Some((i, j))) => self.pool[i][1] = self.pool[j][1],
            (3, Some((i, j))) => self.pool[i] = self.pool[j],
            (4, Some((i, _))) if (self.map[1] as usize) < self.pool.len() => {
                // An entry doubled behind its neighbours, and counted: the order of the keys is kept.
                let used = self.map[1] as usize;
                self.pool[i..=used].rotate_right(1);
                self.pool[i] = self.pool[(i + 1).min(used)];
                self.map[1] += 1;
            }
            (5, Some((i, _))) => {
                // An entry fewer: the order of the keys is kept.
                let used = (self.map[1] as usize).min(self.pool.len());
                self.pool[i..used].rotate_left(1);
                self.map[1] -= 1;
            }
            (6, Some((i, _))) => self.pool[i][1] ^= 1,
            _ => flip_bit(&mut self.map, self.nums.len(), rng),
        }
    }
}
