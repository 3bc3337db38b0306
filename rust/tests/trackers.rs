//! A point is one tracker's: calls of others that would move or remove it are refused, whenever they come, and change nothing.
use chavrupas::Refusal::*;
use chavrupas::{Aabb, Found, Grid, Handle, Kind, Refusal, Reply, Tracked};

#[macro_use]
mod lent;
use lent::Lent;

const NAN: f32 = f32::NAN;
const HERE: [f32; 2] = [4.0, 4.0];
/// Numbers of no tracker: the first, some that would be 0 or 3 if they were cut to three bits, or times four to 32, and the last.
const NO_TRACKER: [u32; 5] = [8, 11, 1 << 30, (1 << 30) + 3, u32::MAX];

/// A grid without objects.
fn built() -> Lent {
    let mut t = Lent::default();
    assert_eq!(call!(chavrupas_points_new, t, 10), 0);
    t
}

fn entered(t: &mut Lent, [x, y]: [f32; 2], obj: u32, tracker: u32) -> Handle {
    let r = call!(chavrupas_points_insert, t, x, y, obj, tracker);
    assert_eq!(r.answer, 0);
    Handle { slot: r.slot, version: r.version }
}

/// The answer of a refused `insert`: no handle is given, no table changed.
fn refused_insert(t: &mut Lent, [x, y]: [f32; 2], tracker: u32) -> u32 {
    let before = t.clone();
    let r = call!(chavrupas_points_insert, t, x, y, 77, tracker);
    assert_eq!((r.slot, r.version, &*t), (0, 0, &before));
    r.answer
}

/// The answers of `set_position`, `remove` and `remove_maintain`, all refused, and the first two alike in a batch: zeros beside them, no table changed.
fn refused(t: &mut Lent, h: Tracked, at: [f32; 2]) -> [u32; 3] {
    let (before, Tracked { handle: Handle { slot, version }, tracker }) = (t.clone(), h);
    let moved = call!(chavrupas_points_set_position, t, slot, version, at[0], at[1], tracker);
    let marked = call!(chavrupas_points_remove, t, slot, version, tracker);
    let taken = call!(chavrupas_points_remove_maintain, t, slot, version, tracker);
    let mut out = [Reply { answer: 77, obj: 77 }; 2];
    let batch = call!(chavrupas_points_batch, t, [0, 1].as_ptr(), 2, [h; 2].as_ptr(), 2, [at; 2].as_ptr(), 2, out.as_mut_ptr(), 2);
    match batch.answer {
        0 => assert_eq!(out, [Reply { answer: moved, obj: 0 }, Reply { answer: marked.answer, obj: 0 }]),
        _ => assert_eq!((batch.answer, batch.count, out), (3, 0, [Reply { answer: 77, obj: 77 }; 2])),
    }
    assert_eq!((marked.obj, taken.obj, &*t), (0, 0, &before));
    [moved, marked.answer, taken.answer]
}

#[test]
fn order_of_refusals() {
    let mut t = built();
    let gone = entered(&mut t, HERE, 1, 3);
    assert_eq!(call!(chavrupas_points_remove_maintain, t, gone.slot, gone.version, 3).obj, 1);
    let (a, b) = (entered(&mut t, HERE, 2, 3), entered(&mut t, HERE, 3, 0));
    let never = [Handle { slot: 0, version: 3 }, Handle { slot: 1, version: 0 }, Handle { slot: 2, version: 1 }];
    assert_eq!(call!(chavrupas_points_remove, t, a.slot, a.version, 3).obj, 2);
    for tracker in NO_TRACKER {
        for h in [a, b, gone].into_iter().chain(never) {
            assert_eq!((refused(&mut t, h.by(tracker), [0.0, NAN]), refused(&mut t, h.by(tracker), HERE)), ([6, 13, 13], [13; 3]));
        }
        assert_eq!((refused_insert(&mut t, [NAN, 0.0], tracker), refused_insert(&mut t, HERE, tracker)), (6, 13));
    }
    for tracker in 0..8 {
        assert_eq!((refused_insert(&mut t, [NAN, 0.0], tracker), refused_insert(&mut t, HERE, tracker)), (6, 4));
        assert_eq!((refused(&mut t, gone.by(tracker), [0.0, NAN]), refused(&mut t, gone.by(tracker), HERE)), ([6, 12, 12], [12; 3]));
        assert_eq!(never.map(|h| refused(&mut t, h.by(tracker), HERE)), [[11; 3]; 3]);
        // that it is marked is told to its own tracker alone
        if tracker != 3 {
            assert_eq!((refused(&mut t, a.by(tracker), [0.0, NAN]), refused(&mut t, a.by(tracker), HERE)), ([6, 14, 14], [14; 3]));
        }
    }
    assert_eq!(call!(chavrupas_points_set_position, t, a.slot, a.version, 4.0, 4.0, 3), 1);
    t.map[1] = 1; // an object is in no list
    for tracker in [0, 3, 8, u32::MAX] {
        assert_eq!([a, b, gone, never[0]].map(|h| refused(&mut t, h.by(tracker), [NAN; 2])), [[3; 3]; 4]);
        assert_eq!(refused_insert(&mut t, [NAN; 2], tracker), 3);
    }
}

/// Tracker 5 moves and removes its point; tracker 2 removes it before, between or after.
fn merges() -> impl Iterator<Item = [(Kind, u32); 3]> {
    let (moves, removes, stranger) = ((Kind::SetPosition, 5), (Kind::Remove, 5), (Kind::Remove, 2));
    [[stranger, moves, removes], [moves, stranger, removes], [moves, removes, stranger]].into_iter()
}

/// The rows that a tracker's calls got.
fn rows(of: u32, calls: &[(Kind, u32); 3], out: &[Reply; 3]) -> Vec<[u32; 2]> {
    calls.iter().zip(out).filter(|((_, tracker), _)| *tracker == of).map(|(_, r)| [r.answer, r.obj]).collect()
}

#[test]
fn strangers_in_a_merge() {
    let mut ends = vec![];
    for calls in merges() {
        let mut t = built();
        let a = entered(&mut t, HERE, 9, 5);
        assert_eq!(refused(&mut t, a.by(2), HERE), [14; 3]);
        let mut by_itself = t.clone();
        let (kinds, handles) = (calls.map(|(kind, _)| kind as u32), calls.map(|(_, tracker)| a.by(tracker)));
        let (at, mut out) = ([[70.0, 7.0]; 3], [Reply { answer: 77, obj: 77 }; 3]);
        let batch = call!(chavrupas_points_batch, t, kinds.as_ptr(), 3, handles.as_ptr(), 3, at.as_ptr(), 3, out.as_mut_ptr(), 3);
        assert_eq!((batch.answer, batch.count), (0, 3));
        assert_eq!((rows(5, &calls, &out), rows(2, &calls, &out)), (vec![[0, 0], [0, 9]], vec![[14, 0]]));
        // one by one it is the same
        for ((kind, tracker), r) in calls.iter().zip(out) {
            let one = match kind {
                Kind::SetPosition => {
                    Reply { answer: call!(chavrupas_points_set_position, by_itself, a.slot, a.version, 70.0, 7.0, *tracker), obj: 0 }
                }
                Kind::Remove => call!(chavrupas_points_remove, by_itself, a.slot, a.version, *tracker),
            };
            assert_eq!(one, r);
        }
        assert_eq!(by_itself, t);
        ends.push(t);
    }
    assert_eq!((&ends[0], &ends[0]), (&ends[1], &ends[2]));
}

/// The same where the calls are few beside the points, so that each marks its cell by itself.
#[test]
fn strangers_among_many_points() {
    for calls in merges() {
        let mut g = Grid::new(10, 64).unwrap();
        let handles: Vec<Handle> = (0..64).map(|s| g.insert([s as f32, 3.0], s, s % 8).unwrap()).collect();
        let (a, mut out) = (handles[21], [Reply { answer: 77, obj: 77 }; 3]);
        assert_eq!(g.batch(&calls.map(|(kind, _)| kind), &calls.map(|(_, tracker)| a.by(tracker)), &[[70.0, 7.0]; 3], &mut out), Ok(3));
        assert_eq!((rows(5, &calls, &out), rows(2, &calls, &out)), (vec![[0, 0], [0, 21]], vec![[14, 0]]));
        let m = g.maintain();
        assert_eq!((m.moved, m.removed, g.len(), g.get(a)), (0, 1, 63, Err(Gone)));
    }
}

#[test]
fn words() {
    for tracker in 0..8 {
        let mut t = built();
        t.nums[1][3] = u32::MAX; // of an empty slot it is not asked
        let Handle { slot, version } = entered(&mut t, HERE, 9, tracker);
        let sent = |t: &mut Lent, x: f32| {
            assert_eq!(call!(chavrupas_points_set_position, t, slot, version, x, 4.0, tracker), 0);
            t.nums[0][3]
        };
        assert_eq!(sent(&mut t, 5.0), 4 * tracker + 1);
        assert_eq!(sent(&mut t, 50.0), 4 * tracker + 2);
        assert_eq!(call!(chavrupas_points_maintain, t).moved, 1);
        assert_eq!(t.nums[0][3], 4 * tracker);
        assert_eq!(call!(chavrupas_points_remove, t, slot, version, tracker).obj, 9);
        assert_eq!(t.nums[0][3], 4 * tracker + 3);
        // the word is all that says whose it is
        t.nums[0][3] = 31;
        assert_eq!((call!(chavrupas_points_get, t, slot, version).answer, call!(chavrupas_points_get, t, slot, version).tracker), (0, 7));
        for word in [32, 33, 35, 63, 64, 1 << 30, 1 << 31, u32::MAX - 31, u32::MAX] {
            t.nums[0][3] = word;
            let got = call!(chavrupas_points_get, t, slot, version);
            assert_eq!((got.answer, got.obj, got.tracker), (3, 0, 0));
            assert_eq!((call!(chavrupas_points_len, t).answer, call!(chavrupas_points_maintain, t).answer), (3, 3));
            assert_eq!((refused(&mut t, Handle { slot, version }.by(tracker), HERE), refused_insert(&mut t, HERE, tracker)), ([3; 3], 3));
        }
        t.nums[0][3] = 31;
        assert_eq!(call!(chavrupas_points_maintain, t).removed, 1);
    }
}

/// Places for the points of the eight trackers, each another, and others in every round.
fn place(round: u32, tracker: u32) -> [f32; 2] {
    [(tracker * (3 + 2 * round) + round) % 9 * 9, (tracker * 5 + round) % 11 * 7].map(|c| c as f32)
}

/// A point of each tracker, the last one first, with the data 100 more than the tracker's number.
fn of_all() -> (Grid, Vec<Handle>) {
    let mut g = Grid::new(10, 8).unwrap();
    let handles = (0..8).rev().map(|tracker| g.insert(place(0, tracker), 100 + tracker, tracker).unwrap()).collect();
    (g, handles)
}

/// Data and tracker of findings, sorted.
fn whose(found: impl Iterator<Item = Found>) -> Vec<(u32, u32)> {
    let mut all: Vec<_> = found.map(|f| (f.obj, f.tracker)).collect();
    all.sort_unstable();
    all
}

#[test]
fn findings() {
    let (mut g, handles) = of_all();
    let all: Vec<(u32, u32)> = (0..8).map(|tracker| (100 + tracker, tracker)).collect();
    for round in 0..5 {
        assert_eq!(whose(g.query([0.0; 2], [90.0; 2]).unwrap()), all);
        assert_eq!(whose(g.query_aabb([0.0; 2], [90.0; 2]).unwrap()), all);
        assert_eq!(whose(g.query_around([40.0; 2], 90.0).unwrap()), all);
        for (tracker, h) in (0..8).rev().zip(&handles) {
            let (position, obj) = (place(round, tracker), 100 + tracker);
            assert_eq!(g.get(*h), Ok((position, obj, tracker)));
            assert_eq!(g.nearest(position, 0.5), Ok(Some(Found { handle: *h, position, obj, tracker })));
            g.set_position(*h, place(round + 1, tracker), tracker).unwrap();
        }
        assert_eq!(g.maintain().moved, 8);
    }
}

#[test]
fn cleared() {
    let (mut g, handles) = of_all();
    g.remove_maintain(handles[2], 5).unwrap();
    g.set_position(handles[4], [90.0; 2], 3).unwrap();
    g.remove(handles[5], 2).unwrap();
    let wanted: Vec<_> = (0..8).rev().filter(|k| *k != 5).map(|k| (place(0, k), 100 + k, k)).collect();
    assert_eq!(g.clear().collect::<Vec<_>>(), wanted);
    // as C has it: a place too few is 9 and nothing, a place too many is left as it was
    let mut t = built();
    entered(&mut t, HERE, u32::MAX, 7);
    entered(&mut t, HERE, 5, 0);
    for places in [1, 3] {
        let (before, mut at, mut objs) = (t.clone(), [[0.5; 2]; 3], [[77; 2]; 3]);
        let r = call!(chavrupas_points_clear, t, at.as_mut_ptr(), 3, objs.as_mut_ptr(), places);
        match places {
            1 => assert_eq!((r.answer, r.count, objs, &t), (9, 2, [[77; 2]; 3], &before)),
            _ => assert_eq!((r.answer, r.count, objs), (0, 2, [[u32::MAX, 7], [5, 0], [77; 2]])),
        }
    }
}

/// The owner moves and removes it, whatever others have sent; who was refused is refused again after `maintain`.
#[test]
fn for_life() {
    for tracker in 0..8 {
        let mut g = Grid::new(10, 2).unwrap();
        let a = g.insert([3.0, 4.0], 1, tracker).unwrap();
        let b = g.insert([3.0, 4.0], 2, 7 - tracker).unwrap();
        for at in [[3.5, 4.5], [300.0, 4.0], [3.0, -4.0], [3.0, -4.0]] {
            for other in (0..8).filter(|k| *k != tracker) {
                assert_eq!((g.set_position(a, [9.0; 2], other), g.remove(a, other)), (Err(OtherTracker), Err(OtherTracker)));
                assert_eq!(g.remove_maintain(a, other), Err(OtherTracker));
            }
            assert_eq!(g.set_position(a, at, tracker), Ok(()));
            g.maintain();
            assert_eq!((g.get(a), g.get(b)), (Ok((at, 1, tracker)), Ok(([3.0, 4.0], 2, 7 - tracker))));
        }
        // a slot that is used again has the tracker of the new object
        let next = (tracker + 1) % 8;
        match tracker % 3 {
            0 => assert_eq!(g.remove_maintain(a, tracker), Ok(1)),
            1 => assert_eq!((g.remove(a, tracker), g.maintain().removed), (Ok(1), 1)),
            _ => assert_eq!(g.clear().map(|(_, _, whose)| whose).collect::<Vec<_>>(), [tracker, 7 - tracker]),
        }
        let again = g.insert([1.0, 2.0], 3, next).unwrap();
        assert_eq!((again.slot, g.get(again)), (a.slot, Ok(([1.0, 2.0], 3, next))));
        assert_eq!((g.remove(again, tracker), g.remove(a, tracker), g.remove(a, 8)), (Err(OtherTracker), Err(Gone), Err(NoTracker)));
        assert_eq!(g.remove_maintain(again, next), Ok(3));
    }
}

#[test]
fn names() {
    assert_eq!((Refusal::of(13), Refusal::of(14), Refusal::of(15)), (Some(NoTracker), Some(OtherTracker), None));
    assert_eq!(Grid::LAST_TRACKER, 7);
    let mut g = Grid::new(10, 1).unwrap();
    assert_eq!(g.insert(HERE, 1, Grid::LAST_TRACKER + 1), Err(NoTracker));
    assert!(g.insert(HERE, 1, Grid::LAST_TRACKER).is_ok());
}
