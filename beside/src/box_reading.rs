//! Document 01 read anew: the box grid. A plain reading, not a fast one; it shares no text with the port.
use crate::point_reading::Filled;
use crate::rules::*;
use crate::slots::{Handle, Slots};
use std::collections::BTreeMap;

/// Lower left and upper right.
#[derive(Clone, Copy, Debug, Default, PartialEq)]
pub struct Aabb {
    pub ll: Spot,
    pub ur: Spot,
}

impl Aabb {
    pub fn of_bits(bits: [u32; 4]) -> Self {
        Aabb { ll: Spot::of_bits([bits[0], bits[1]]), ur: Spot::of_bits([bits[2], bits[3]]) }
    }

    pub fn bits(&self) -> [u32; 4] {
        let (ll, ur) = (self.ll.bits(), self.ur.bits());
        [ll[0], ll[1], ur[0], ur[1]]
    }

    /// In the domain and not reversed.
    pub fn good(&self) -> bool {
        self.ll.in_domain() && self.ur.in_domain() && self.ll.x <= self.ur.x && self.ll.y <= self.ur.y
    }

    pub fn range(&self, size: u32) -> Range {
        Range::of(self.ll, self.ur, size)
    }

    /// The test of src/lib.rs, operations in its order, the query box first.
    pub fn intersects(&self, b: &Aabb) -> bool {
        let touch = |low: f32, high: f32, b_low: f32, b_high: f32| {
            let apart = (low + high) - (b_low + b_high);
            let apart = if apart < 0.0 { -apart } else { apart };
            apart <= high - low + b_high - b_low
        };
        touch(self.ll.x, self.ur.x, b.ll.x, b.ur.x) && touch(self.ll.y, self.ur.y, b.ll.y, b.ur.y)
    }
}

#[derive(Clone, Debug, PartialEq)]
pub struct Boxed {
    pub data: u32,
    pub aabb: Aabb,
}

/// The slots, the list of each cell that has one, and the places of the pool. A list names a slot, with a mark when the box covers one cell only.
#[derive(Clone, Debug, PartialEq)]
pub struct Boxes {
    pub size: u32,
    pub pool: usize,
    pub slots: Slots<Boxed>,
    pub lists: BTreeMap<Cell, Vec<(u32, bool)>>,
}

#[derive(Clone, Copy, Debug, PartialEq)]
pub struct BoxFinding {
    pub handle: Handle,
    pub aabb: Aabb,
    pub data: u32,
}

impl Boxes {
    pub fn new(n: usize, pool: usize, size: u32) -> Self {
        Boxes { size, pool, slots: Slots::new(n), lists: BTreeMap::new() }
    }

    /// Entries in use.
    pub fn used(&self) -> i64 {
        self.lists.values().map(|list| list.len() as i64).sum()
    }

    fn enter(&mut self, slot: u32, range: Range) {
        let mark = range.count() == 1;
        for cell in range.cells() {
            self.lists.entry(cell).or_default().push((slot, mark));
        }
    }

    fn leave(&mut self, slot: u32, range: Range) {
        for cell in range.cells() {
            let list = self.lists.get_mut(&cell).unwrap();
            let place = list.iter().position(|(s, _)| *s == slot).unwrap();
            list.swap_remove(place);
            if list.is_empty() {
                self.lists.remove(&cell);
            }
        }
    }

    pub fn insert(&mut self, aabb: Aabb, data: u32) -> (u32, Handle) {
        let none = Handle { slot: 0, version: 0 };
        if !aabb.good() {
            return (DOMAIN, none);
        }
        let range = aabb.range(self.size);
        let usable = self.slots.usable();
        let over = self.used() + range.count() > self.pool as i64;
        let answer = first(&[(range.count() > MOST_CELLS, CELLS), (usable.is_none(), FULL), (over, POOL)]);
        if answer != DONE {
            return (answer, none);
        }
        let handle = self.slots.fill(usable.unwrap(), Boxed { data, aabb });
        self.enter(handle.slot, range);
        (DONE, handle)
    }

    pub fn set_aabb(&mut self, h: Handle, aabb: Aabb) -> u32 {
        if !aabb.good() {
            return DOMAIN;
        }
        let object = match self.slots.get(h) {
            None => return self.slots.why_not(h),
            Some(object) => object,
        };
        let (old, new) = (object.aabb.range(self.size), aabb.range(self.size));
        let over = self.used() - old.count() + new.count() > self.pool as i64;
        let answer = first(&[(new.count() > MOST_CELLS, CELLS), (over, POOL)]);
        if answer == DONE {
            self.slots.get_mut(h).unwrap().aabb = aabb;
            if old != new {
                self.leave(h.slot, old);
                self.enter(h.slot, new);
            }
        }
        answer
    }

    pub fn remove(&mut self, h: Handle) -> (u32, u32) {
        let object = match self.slots.get(h) {
            None => return (self.slots.why_not(h), 0),
            Some(object) => object.clone(),
        };
        self.leave(h.slot, object.aabb.range(self.size));
        self.slots.empty(h.slot as usize);
        (DONE, object.data)
    }

    pub fn get(&self, h: Handle) -> (u32, Aabb, u32) {
        match self.slots.get(h) {
            None => (self.slots.why_not(h), Aabb::default(), 0),
            Some(object) => (DONE, object.aabb, object.data),
        }
    }

    pub fn handles(&self, places: usize) -> Filled<Handle> {
        Filled::fitted(self.slots.objects().map(|(h, _)| h).collect(), places)
    }

    pub fn clear(&mut self, places: usize) -> Filled<(Aabb, u32)> {
        let filled = Filled::fitted(self.slots.objects().map(|(_, o)| (o.aabb, o.data)).collect(), places);
        if filled.answer == DONE {
            self.lists.clear();
            self.slots.empty_all();
        }
        filled
    }

    /// Each box of the range once, at its first place in the walk; or the answer of a refusal.
    fn broad(&self, q: Aabb) -> Result<Vec<u32>, u32> {
        if !q.good() {
            return Err(DOMAIN);
        }
        let range = q.range(self.size);
        if range.count() > MOST_CELLS {
            return Err(CELLS);
        }
        let mut seen = vec![false; self.slots.slots.len()];
        let mut found = vec![];
        for y in range.low.y..=range.high.y {
            let row = Cell { y, x: range.low.x }..=Cell { y, x: range.high.x };
            for (slot, _) in self.lists.range(row).flat_map(|(_, list)| list) {
                if !std::mem::replace(&mut seen[*slot as usize], true) {
                    found.push(*slot);
                }
            }
        }
        Ok(found)
    }

    pub fn query_broad(&self, q: Aabb, places: usize) -> Filled<Handle> {
        match self.broad(q) {
            Err(answer) => Filled::refused(answer),
            Ok(found) => Filled::fitted(found.iter().map(|s| self.slots.handle(*s as usize)).collect(), places),
        }
    }

    pub fn query(&self, q: Aabb, places: usize) -> Filled<BoxFinding> {
        let found = match self.broad(q) {
            Err(answer) => return Filled::refused(answer),
            Ok(found) => found,
        };
        let finding = |slot: &u32| {
            let object = self.slots.live(*slot).unwrap();
            let handle = self.slots.handle(*slot as usize);
            BoxFinding { handle, aabb: object.aabb, data: object.data }
        };
        Filled::fitted(found.iter().map(finding).filter(|f| q.intersects(&f.aabb)).collect(), places)
    }
}
