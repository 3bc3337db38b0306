//! What a call is given besides coordinates: handles, trackers, places of outputs; and slots that have served long.
use crate::random::Rng;
use crate::rules::LAST_VERSION;
use crate::slots::{Handle, Slot, Slots};
use std::collections::{HashMap, VecDeque};

/// A slot that passes a test, if there is one.
fn some_slot<T>(slots: &Slots<T>, rng: &mut Rng, passes: impl Fn(usize) -> bool) -> Option<usize> {
    let n = slots.slots.len();
    let start = rng.below(n as u64) as usize;
    (start..n).chain(0..start).find(|s| passes(*s))
}

/// A good handle, if there is one.
pub fn good<T>(slots: &Slots<T>, rng: &mut Rng) -> Option<Handle> {
    some_slot(slots, rng, |s| slots.live(s as u32).is_some()).map(|s| slots.handle(s))
}

/// A handle of a call: good mostly, or of any kind that is refused.
pub fn handle<T>(slots: &Slots<T>, rng: &mut Rng) -> Handle {
    match good(slots, rng) {
        Some(h) if !rng.once_in(4) => h,
        _ => lost(slots, rng),
    }
}

/// A handle that is mostly not good: of a slot in each state, half the time one that was used before, with a version before its own, after it, its own or 0;
/// of a slot past the table, the last number too; any.
fn lost<T>(slots: &Slots<T>, rng: &mut Rng) -> Handle {
    let n = slots.slots.len() as u32;
    let (state, used) = (rng.below(4), rng.once_in(2));
    let wanted = |s: usize| match slots.slots[s] {
        _ if used && slots.versions[s] == 1 => false,
        Slot::Free => state == 0 || state == 3,
        Slot::Live(_) => state == 1 || state == 3,
        Slot::Retired => state == 2 || state == 3,
    };
    let slot = some_slot(slots, rng, wanted).unwrap_or(rng.below(n.into()) as usize) as u32;
    let current = slots.versions[slot as usize];
    let version = match rng.below(8) {
        0 => current.wrapping_sub(1),
        1 | 2 => 1 + rng.below(current.into()) as u32,
        3 => current.wrapping_add(1),
        4 => current | rng.bits(),
        5 => 0,
        _ => current,
    };
    match rng.below(12) {
        0 => Handle { slot: n + slot, version },
        1 => Handle { slot: u32::MAX, version },
        2 => Handle { slot: rng.bits(), version: rng.bits() },
        _ => Handle { slot, version },
    }
}

/// The tracker of a call: mostly the point's own; at times another's, or a number of none. On a lost handle, which has none, any.
pub fn tracker(own: Option<u32>, rng: &mut Rng) -> u32 {
    let any = rng.below(8) as u32;
    let own = own.unwrap_or(any);
    match rng.below(16) {
        0 => no_tracker(own, rng),
        1 | 2 => any,
        _ => own,
    }
}

/// A number above 7: the first of them, the last, a little above, any; or one of which some bits are a tracker's number.
fn no_tracker(own: u32, rng: &mut Rng) -> u32 {
    match rng.below(4) {
        0 => 8,
        1 => rng.pick(&[9, 15, 16, 31, 32, u32::MAX]),
        2 => own + rng.pick(&[8, 16, 32, 256, 65_536, 1 << 29, 1 << 30, 1 << 31]),
        _ => rng.bits() | 8,
    }
}

/// The places of calls of these trackers in another order that keeps each tracker's own.
pub fn merge(trackers: &[u32], rng: &mut Rng) -> Vec<usize> {
    let mut turns = trackers.to_vec();
    for i in (1..turns.len()).rev() {
        turns.swap(i, rng.below(i as u64 + 1) as usize);
    }
    let mut waiting: HashMap<u32, VecDeque<usize>> = HashMap::new();
    for (i, tracker) in trackers.iter().enumerate() {
        waiting.entry(*tracker).or_default().push_back(i);
    }
    turns.iter().map(|tracker| waiting.get_mut(tracker).unwrap().pop_front().unwrap()).collect()
}

/// Places of an output: enough mostly, or exactly as many as needed, or fewer.
pub fn places(needed: usize, rng: &mut Rng) -> usize {
    match rng.below(8) {
        0 => needed,
        1 => needed.saturating_sub(1),
        2 => rng.below(needed as u64 + 1) as usize,
        _ => needed + rng.below(5) as usize,
    }
}

/// The empty slots of a new grid have served long: some are free at one of the last two versions, some retired. The tables still hold a grid.
pub fn age<T>(slots: &mut Slots<T>, nums: &mut [[u32; 4]], map: &mut [u64], rng: &mut Rng) {
    for (s, row) in nums.iter_mut().enumerate() {
        match rng.below(6) {
            0 => slots.versions[s] = LAST_VERSION,
            1 => slots.versions[s] = LAST_VERSION - 1,
            2 if s > 0 => {
                slots.versions[s] = LAST_VERSION;
                slots.slots[s] = Slot::Retired;
                row[1] = 2;
                map[3 + s / 64] &= !(1 << (s % 64));
            }
            _ => (),
        }
        row[0] = slots.versions[s];
    }
}

/// The data of the next object: another one for each, over all 32 bits.
pub fn data(next: &mut u32) -> u32 {
    *next += 1;
    (*next - 1).wrapping_mul(2_654_435_761)
}
