//! Document 01 read anew: the point grid; Req 06: which objects count as moved; Req 07: whose a point is. A plain reading, not a fast one; it shares no text
//! with the port.
use crate::rules::*;
use crate::slots::{Handle, Slots};
use std::collections::BTreeMap;

#[derive(Clone, Copy, Debug, PartialEq)]
pub enum State {
    Unchanged,
    NewPos(Spot),
    Relocate(Spot, Cell),
    Removed,
}

#[derive(Clone, Debug, PartialEq)]
pub struct Point {
    pub data: u32,
    pub at: Spot,
    pub cell: Cell,
    pub state: State,
    pub tracker: u32,
}

impl Point {
    /// Req 06: whether it has a new position that differs by its numbers from the recorded one.
    fn moves(&self) -> bool {
        match self.state {
            State::NewPos(to) | State::Relocate(to, _) => to.elsewhere(self.at),
            State::Unchanged | State::Removed => false,
        }
    }
}

/// The slots, and the list of each cell that has one.
#[derive(Clone, Debug, PartialEq)]
pub struct Points {
    pub size: u32,
    pub slots: Slots<Point>,
    pub lists: BTreeMap<Cell, Vec<u32>>,
}

#[derive(Clone, Copy, Debug, PartialEq)]
pub struct Finding {
    pub handle: Handle,
    pub at: Spot,
    pub data: u32,
    pub tracker: u32,
}

/// What `nearest` gives beside its answer: a count of 1 with the finding, its position by bits; or zeros.
pub fn nearest_words(found: Option<Finding>) -> [u32; 7] {
    found.map_or([0; 7], |f| [1, f.handle.slot, f.handle.version, f.at.bits()[0], f.at.bits()[1], f.data, f.tracker])
}

/// An answer, a number beside it, and what the output is filled with.
#[derive(Clone, Debug, PartialEq)]
pub struct Filled<T> {
    pub answer: u32,
    pub count: u64,
    pub out: Vec<T>,
}

impl<T> Filled<T> {
    pub fn refused(answer: u32) -> Self {
        Filled { answer, count: 0, out: vec![] }
    }

    /// 9 if the output has fewer places, with the number found.
    pub fn fitted(out: Vec<T>, places: usize) -> Self {
        let count = out.len() as u64;
        if out.len() > places {
            Filled { answer: OUTPUT, count, out: vec![] }
        } else {
            Filled { answer: DONE, count, out }
        }
    }
}

/// One of a batch.
#[derive(Clone, Copy, Debug)]
pub struct Deferred {
    pub kind: u32,
    pub handle: Handle,
    pub at: Spot,
    pub tracker: u32,
}

impl Points {
    pub fn new(n: usize, size: u32) -> Self {
        Points { size, slots: Slots::new(n), lists: BTreeMap::new() }
    }

    pub fn insert(&mut self, at: Spot, data: u32, tracker: u32) -> (u32, Handle) {
        let none = Handle { slot: 0, version: 0 };
        let usable = self.slots.usable();
        let answer = first(&[(!at.in_domain(), DOMAIN), (tracker > LAST_TRACKER, NO_TRACKER), (usable.is_none(), FULL)]);
        if answer != DONE {
            return (answer, none);
        }
        let cell = at.cell(self.size);
        let handle = self.slots.fill(usable.unwrap(), Point { data, at, cell, state: State::Unchanged, tracker });
        self.lists.entry(cell).or_default().push(handle.slot);
        (DONE, handle)
    }

    /// Req 07: why a call of this tracker may not move or remove what the handle names.
    fn not_own(&self, h: Handle, tracker: u32) -> u32 {
        let object = self.slots.get(h);
        let others = object.map_or(false, |o| o.tracker != tracker);
        first(&[(tracker > LAST_TRACKER, NO_TRACKER), (object.is_none(), self.slots.why_not(h)), (others, OTHER_TRACKER)])
    }

    pub fn set_position(&mut self, h: Handle, at: Spot, tracker: u32) -> u32 {
        let (size, why) = (self.size, self.not_own(h, tracker));
        let object = self.slots.get_mut(h);
        let marked = object.as_ref().map_or(false, |o| o.state == State::Removed);
        let answer = first(&[(!at.in_domain(), DOMAIN), (why != DONE, why), (marked, MARKED)]);
        if answer == DONE {
            let object = object.unwrap();
            let target = at.cell(size);
            object.state = if target == object.cell { State::NewPos(at) } else { State::Relocate(at, target) };
        }
        answer
    }

    pub fn remove(&mut self, h: Handle, tracker: u32) -> (u32, u32) {
        match self.not_own(h, tracker) {
            DONE => {
                let object = self.slots.get_mut(h).unwrap();
                object.state = State::Removed;
                (DONE, object.data)
            }
            why => (why, 0),
        }
    }

    /// Document 01 gives no count to an accepted batch: the number of its calls is the port's.
    pub fn batch(&mut self, calls: &[Deferred], places: usize) -> Filled<[u32; 2]> {
        if places < calls.len() {
            return Filled { answer: OUTPUT, count: calls.len() as u64, out: vec![] };
        }
        let out = calls.iter().map(|c| self.deferred(c)).collect();
        Filled::fitted(out, places)
    }

    fn deferred(&mut self, c: &Deferred) -> [u32; 2] {
        if c.kind == 0 {
            [self.set_position(c.handle, c.at, c.tracker), 0]
        } else {
            let (answer, data) = self.remove(c.handle, c.tracker);
            [answer, data]
        }
    }

    pub fn remove_maintain(&mut self, h: Handle, tracker: u32) -> (u32, u32) {
        let object = match self.not_own(h, tracker) {
            DONE => self.slots.get(h).unwrap().clone(),
            why => return (why, 0),
        };
        let list = self.lists.get_mut(&object.cell).unwrap();
        let place = list.iter().position(|s| *s == h.slot).unwrap();
        list.swap_remove(place);
        if list.is_empty() {
            self.lists.remove(&object.cell);
        }
        self.slots.empty(h.slot as usize);
        (DONE, object.data)
    }

    /// The objects whose new position is another than the recorded one by its numbers, counted before anything is settled, and the objects removed.
    pub fn maintain(&mut self) -> (u32, u32) {
        let moved = self.slots.objects().filter(|(_, object)| object.moves()).count() as u32;
        let mut removed = 0;
        let mut relocated = vec![];
        for list in self.lists.values_mut() {
            let mut place = 0;
            while place < list.len() {
                let slot = list[place];
                let object = self.slots.live_mut(slot).unwrap();
                let state = std::mem::replace(&mut object.state, State::Unchanged);
                match state {
                    State::Unchanged => place += 1,
                    State::NewPos(at) => {
                        object.at = at;
                        place += 1;
                    }
                    State::Relocate(at, cell) => {
                        object.at = at;
                        object.cell = cell;
                        relocated.push((slot, cell));
                        list.swap_remove(place);
                    }
                    State::Removed => {
                        removed += 1;
                        self.slots.empty(slot as usize);
                        list.swap_remove(place);
                    }
                }
            }
        }
        relocated.sort_unstable();
        for (slot, cell) in relocated {
            self.lists.entry(cell).or_default().push(slot);
        }
        self.lists.retain(|_, list| !list.is_empty());
        (moved, removed)
    }

    /// Answer, recorded position, data and tracker.
    pub fn get(&self, h: Handle) -> (u32, Spot, u32, u32) {
        match self.slots.get(h) {
            None => (self.slots.why_not(h), Spot::default(), 0, 0),
            Some(object) => (DONE, object.at, object.data, object.tracker),
        }
    }

    pub fn handles(&self, places: usize) -> Filled<Handle> {
        Filled::fitted(self.slots.objects().map(|(h, _)| h).collect(), places)
    }

    /// Recorded position, and data with tracker, of each.
    pub fn clear(&mut self, places: usize) -> Filled<(Spot, [u32; 2])> {
        let filled = Filled::fitted(self.slots.objects().map(|(_, o)| (o.at, [o.data, o.tracker])).collect(), places);
        if filled.answer == DONE {
            self.lists.clear();
            self.slots.empty_all();
        }
        filled
    }

    /// All entries of a range that pass a test, in range order, then list order.
    fn walk(&self, range: Range, places: usize, test: impl Fn(Spot) -> bool) -> Filled<Finding> {
        if range.count() > MOST_CELLS {
            return Filled::refused(CELLS);
        }
        let mut out = vec![];
        if range.count() > 0 {
            for y in range.low.y..=range.high.y {
                let row = Cell { y, x: range.low.x }..=Cell { y, x: range.high.x };
                for slot in self.lists.range(row).flat_map(|(_, list)| list) {
                    let object = self.slots.live(*slot).unwrap();
                    if test(object.at) {
                        let handle = self.slots.handle(*slot as usize);
                        out.push(Finding { handle, at: object.at, data: object.data, tracker: object.tracker });
                    }
                }
            }
        }
        Filled::fitted(out, places)
    }

    pub fn query(&self, ll: Spot, ur: Spot, places: usize) -> Filled<Finding> {
        if !ll.in_domain() || !ur.in_domain() {
            return Filled::refused(DOMAIN);
        }
        self.walk(Range::of(ll, ur, self.size), places, |_| true)
    }

    pub fn query_around(&self, centre: Spot, r: f32, places: usize) -> Filled<Finding> {
        if !centre.in_domain() || !radius_in_domain(r) {
            return Filled::refused(DOMAIN);
        }
        let ll = Spot::new(centre.x - r, centre.y - r);
        let ur = Spot::new(centre.x + r, centre.y + r);
        self.walk(Range::of(ll, ur, self.size), places, |at| {
            let (dx, dy) = (at.x - centre.x, at.y - centre.y);
            dx * dx + dy * dy < r * r
        })
    }

    /// Refused as the circle is, without 9. Then a scan of all objects, ascending by slot: each that is strictly nearer than the best before it, or than the
    /// radius where there is none, is the best from there on. So the lowest slot of equally near ones is kept.
    pub fn nearest(&self, centre: Spot, r: f32) -> (u32, Option<Finding>) {
        let circle = self.query_around(centre, r, usize::MAX);
        let (mut best, mut found) = (r * r, None);
        for (handle, object) in self.slots.objects().filter(|_| circle.answer == DONE) {
            let (dx, dy) = (object.at.x - centre.x, object.at.y - centre.y);
            if dx * dx + dy * dy < best {
                best = dx * dx + dy * dy;
                found = Some(Finding { handle, at: object.at, data: object.data, tracker: object.tracker });
            }
        }
        (circle.answer, found)
    }

    pub fn query_aabb(&self, a: Spot, b: Spot, places: usize) -> Filled<Finding> {
        if !a.in_domain() || !b.in_domain() {
            return Filled::refused(DOMAIN);
        }
        let sorted = |p: f32, q: f32| if q < p { (q, p) } else { (p, q) };
        let ((left, right), (low, high)) = (sorted(a.x, b.x), sorted(a.y, b.y));
        let range = Range::of(Spot::new(left, low), Spot::new(right, high), self.size);
        self.walk(range, places, |at| left <= at.x && at.x <= right && low <= at.y && at.y <= high)
    }
}
