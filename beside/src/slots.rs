//! Document 01 read anew: slots, versions and handles of both grids; and Req 03: why a handle is not good.
use crate::rules::{GONE, LAST_VERSION, NEVER_ISSUED};
use std::collections::HashSet;

#[derive(Clone, Copy, Debug, PartialEq, Eq)]
pub struct Handle {
    pub slot: u32,
    pub version: u32,
}

#[derive(Clone, Debug, PartialEq)]
pub enum Slot<T> {
    Free,
    Live(T),
    Retired,
}

/// A version beside each slot.
#[derive(Clone, Debug, PartialEq)]
pub struct Slots<T> {
    pub versions: Vec<u32>,
    pub slots: Vec<Slot<T>>,
}

impl<T> Slots<T> {
    pub fn new(n: usize) -> Self {
        Slots { versions: vec![1; n], slots: (0..n).map(|_| Slot::Free).collect() }
    }

    pub fn len(&self) -> usize {
        self.slots.iter().filter(|s| matches!(s, Slot::Live(_))).count()
    }

    pub fn is_empty(&self) -> bool {
        self.len() == 0
    }

    /// The lowest-numbered usable slot.
    pub fn usable(&self) -> Option<usize> {
        self.slots.iter().position(|s| matches!(s, Slot::Free))
    }

    pub fn get(&self, h: Handle) -> Option<&T> {
        match self.slots.get(h.slot as usize) {
            Some(Slot::Live(object)) if self.versions[h.slot as usize] == h.version => Some(object),
            _ => None,
        }
    }

    pub fn get_mut(&mut self, h: Handle) -> Option<&mut T> {
        match self.slots.get_mut(h.slot as usize) {
            Some(Slot::Live(object)) if self.versions[h.slot as usize] == h.version => Some(object),
            _ => None,
        }
    }

    /// Why a handle that is not good is refused. Gone: the slot exists and the version is at least 1 and below the slot's current one, or the slot is
    /// retired and the version is its last. Never issued: every other.
    pub fn why_not(&self, h: Handle) -> u32 {
        let slot = h.slot as usize;
        match self.slots.get(slot) {
            Some(_) if (1..self.versions[slot]).contains(&h.version) => GONE,
            Some(Slot::Retired) if h.version == LAST_VERSION => GONE,
            _ => NEVER_ISSUED,
        }
    }

    /// What kind of handle it is, for the counts of a run.
    pub fn kind(&self, h: Handle) -> &'static str {
        let slot = h.slot as usize;
        let (state, current) = match self.slots.get(slot) {
            None if h.slot == u32::MAX => return "handles: slot 4294967295",
            None => return "handles: slot past the table",
            Some(state) => (state, self.versions[slot]),
        };
        match (state, h.version) {
            (_, 0) => "handles: version 0",
            (_, version) if version > current => "handles: version above the slot's",
            (Slot::Live(_), version) if version == current => "handles: good",
            (Slot::Free, version) if version == current => "handles: free slot at its own version",
            (Slot::Retired, version) if version == current => "handles: retired slot at its last version",
            (Slot::Live(_), _) => "handles: older version of an occupied slot",
            (Slot::Free, _) => "handles: older version of a free slot",
            (Slot::Retired, _) => "handles: older version of a retired slot",
        }
    }

    pub fn live(&self, slot: u32) -> Option<&T> {
        match self.slots.get(slot as usize) {
            Some(Slot::Live(object)) => Some(object),
            _ => None,
        }
    }

    pub fn live_mut(&mut self, slot: u32) -> Option<&mut T> {
        match self.slots.get_mut(slot as usize) {
            Some(Slot::Live(object)) => Some(object),
            _ => None,
        }
    }

    pub fn handle(&self, slot: usize) -> Handle {
        Handle { slot: slot as u32, version: self.versions[slot] }
    }

    pub fn fill(&mut self, slot: usize, object: T) -> Handle {
        self.slots[slot] = Slot::Live(object);
        self.handle(slot)
    }

    /// A version rises by one each time the slot is emptied; a slot emptied at the last version is retired.
    pub fn empty(&mut self, slot: usize) {
        if self.versions[slot] == LAST_VERSION {
            self.slots[slot] = Slot::Retired;
        } else {
            self.versions[slot] += 1;
            self.slots[slot] = Slot::Free;
        }
    }

    pub fn empty_all(&mut self) {
        for slot in 0..self.slots.len() {
            if self.live(slot as u32).is_some() {
                self.empty(slot);
            }
        }
    }

    /// The objects, ascending by slot.
    pub fn objects(&self) -> impl Iterator<Item = (Handle, &T)> {
        self.slots.iter().enumerate().filter_map(|(s, slot)| match slot {
            Slot::Live(object) => Some((self.handle(s), object)),
            _ => None,
        })
    }
}

/// The handles that a grid has given out since it was built: 11 and 12 read a second time, by what happened and not by the versions of now.
pub struct Issued {
    given: HashSet<(u32, u32)>,
    /// Of each slot the last version that counts as given out before: none in a new grid, some where slots were aged.
    before: Vec<u32>,
}

impl Issued {
    /// Of a grid that has no objects yet.
    pub fn of<T>(slots: &Slots<T>) -> Self {
        let before = slots.versions.iter().zip(&slots.slots).map(|(v, slot)| if let Slot::Retired = slot { *v } else { *v - 1 });
        Issued { given: HashSet::new(), before: before.collect() }
    }

    pub fn give(&mut self, h: Handle) {
        self.given.insert((h.slot, h.version));
    }

    /// Why a handle that is not good is refused: it was given out, or it never was.
    pub fn why_not(&self, h: Handle) -> u32 {
        let aged = self.before.get(h.slot as usize).map_or(false, |last| (1..=*last).contains(&h.version));
        if aged || self.given.contains(&(h.slot, h.version)) {
            GONE
        } else {
            NEVER_ISSUED
        }
    }
}
