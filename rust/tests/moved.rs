//! What `maintain` counts: as moved the objects whose position is another by its numbers than before, as removed those that are taken out.
use chavrupas::{Grid, Handle, Kind, Reply, Tracked};

/// A deferred call.
type Call = (Kind, Handle, [f32; 2]);

/// A way to make deferred calls: one by one, or in a batch.
type Way = fn(&mut Grid, &[Call]);

fn one_by_one(g: &mut Grid, calls: &[Call]) {
    for (kind, h, at) in calls {
        match kind {
            Kind::SetPosition => g.set_position(*h, *at, 0).unwrap(),
            Kind::Remove => drop(g.remove(*h, 0).unwrap()),
        }
    }
}

fn in_a_batch(g: &mut Grid, calls: &[Call]) {
    let kinds: Vec<Kind> = calls.iter().map(|c| c.0).collect();
    let handles: Vec<Tracked> = calls.iter().map(|c| c.1.by(0)).collect();
    let at: Vec<[f32; 2]> = calls.iter().map(|c| c.2).collect();
    let mut out = vec![Reply::default(); calls.len()];
    assert_eq!(g.batch(&kinds, &handles, &at, &mut out), Ok(calls.len()));
    assert!(out.iter().all(|r| r.result().is_ok()));
}

fn to(h: Handle, at: [f32; 2]) -> Call {
    (Kind::SetPosition, h, at)
}

/// Makes the calls. Gives how many objects the next `maintain` moved and removed.
fn counts(way: Way, g: &mut Grid, calls: &[Call]) -> [usize; 2] {
    way(g, calls);
    let m = g.maintain();
    [m.moved, m.removed]
}

fn moves(way: Way) {
    let mut g = Grid::new(10, 8).unwrap();
    let a = g.insert([3.0, 4.0], 1, 0).unwrap();
    assert_eq!(counts(way, &mut g, &[]), [0, 0]);
    // where it is; and away and back, in its cell and by another one
    assert_eq!(counts(way, &mut g, &[to(a, [3.0, 4.0])]), [0, 0]);
    assert_eq!(counts(way, &mut g, &[to(a, [5.0, 6.0]), to(a, [3.0, 4.0])]), [0, 0]);
    assert_eq!(counts(way, &mut g, &[to(a, [300.0, 4.0]), to(a, [3.0, 4.0])]), [0, 0]);
    // in y alone, in x alone, to another cell
    assert_eq!(counts(way, &mut g, &[to(a, [3.0, 5.0])]), [1, 0]);
    assert_eq!(counts(way, &mut g, &[to(a, [2.0, 5.0])]), [1, 0]);
    assert_eq!(counts(way, &mut g, &[to(a, [300.0, -5.0])]), [1, 0]);
    assert_eq!(g.get(a), Ok(([300.0, -5.0], 1, 0)));
    // one at rest, the other by the least step, in x alone and in y alone
    let b = g.insert([100.0, 7.0], 2, 0).unwrap();
    let next = |c: f32| f32::from_bits(c.to_bits() + 1);
    assert_eq!(counts(way, &mut g, &[to(a, [300.0, -5.0]), to(b, [next(100.0), 7.0])]), [1, 0]);
    assert_eq!(counts(way, &mut g, &[to(a, [300.0, -5.0]), to(b, [next(100.0), next(7.0)])]), [1, 0]);
    assert_eq!(g.get(b), Ok(([next(100.0), next(7.0)], 2, 0)));
    // moved and then removed: removed alone
    assert_eq!(counts(way, &mut g, &[to(a, [7.0, 7.0]), (Kind::Remove, a, [0.0; 2]), to(b, [8.0, 8.0])]), [1, 1]);
    assert_eq!(counts(way, &mut g, &[to(b, [9.0, 8.0]), (Kind::Remove, b, [0.0; 2])]), [0, 1]);
}

#[test]
fn moves_one_by_one() {
    moves(one_by_one);
}

#[test]
fn moves_in_a_batch() {
    moves(in_a_batch);
}

/// A zero of the other sign is where it was, and is what `get` and a circle give from then on.
fn zeros(way: Way) {
    for first in [[0.0, 5.0], [5.0, 0.0], [0.0, 0.0]] {
        let mut g = Grid::new(10, 8).unwrap();
        let a = g.insert(first, 1, 0).unwrap();
        let other = first.map(|c| if c == 0.0 { -c } else { c });
        for at in [other, first, other] {
            assert_eq!(counts(way, &mut g, &[to(a, at)]), [0, 0]);
            let bits = at.map(f32::to_bits);
            assert_eq!(g.get(a).unwrap().0.map(f32::to_bits), bits);
            let found: Vec<_> = g.query_around(first, 1.0).unwrap().map(|f| f.position.map(f32::to_bits)).collect();
            assert_eq!(found, [bits]);
        }
        // the number next to zero is another one
        assert_eq!(counts(way, &mut g, &[to(a, other.map(|c| if c == 0.0 { f32::from_bits(1) } else { c }))]), [1, 0]);
    }
}

#[test]
fn zeros_one_by_one() {
    zeros(one_by_one);
}

#[test]
fn zeros_in_a_batch() {
    zeros(in_a_batch);
}
