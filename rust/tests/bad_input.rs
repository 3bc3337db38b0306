//! What a new user gets wrong: each is refused by name, and nothing changes.
use chavrupas::encoder::{fill_map, BLOCKS, COLUMNS, ROWS};
use chavrupas::Refusal::*;
use chavrupas::{Aabb, AabbGrid, Found, Grid, Handle, Kind, Refusal, Reply, Tracked};

#[macro_use]
mod lent;
use lent::{ffi, Lent};

const NAN: f32 = f32::NAN;

/// Everything that the calls tell of a grid.
fn told(g: &mut Grid) -> Vec<(Handle, [f32; 2], u32, u32)> {
    let handles = g.handles().to_vec();
    handles.into_iter().map(|h| g.get(h).map(|(at, obj, tracker)| (h, at, obj, tracker)).unwrap()).collect()
}

#[test]
fn sizes() {
    for size in [0, 1_048_577, u32::MAX] {
        assert_eq!(Grid::new(size, 8).unwrap_err(), CellSize);
        assert_eq!(AabbGrid::new(size, 8, 8).unwrap_err(), CellSize);
    }
    for slots in [0, 4097, usize::MAX] {
        assert_eq!(Grid::new(16, slots).unwrap_err(), Tables);
        assert_eq!(AabbGrid::new(16, slots, 8).unwrap_err(), Tables);
        assert_eq!(AabbGrid::new(16, 8, slots.saturating_mul(2)).unwrap_err(), Tables);
    }
    for (size, slots) in [(1, 1), (1_048_576, 4096)] {
        assert_eq!(Grid::new(size, slots).unwrap().len(), 0);
        assert_eq!(AabbGrid::new(size, slots.min(256), 2 * slots).unwrap().len(), 0);
    }
}

#[test]
fn points() {
    let mut g = Grid::new(1, 2).unwrap();
    let a = g.insert([3.0, 4.0], 1, 5).unwrap();
    g.insert([-0.0, 1_048_576.0], 2, 6).unwrap();
    let before = told(&mut g);
    assert_eq!(g.insert([0.0; 2], 3, 5), Err(NoUsableSlot));
    for at in [[NAN, 0.0], [0.0, f32::INFINITY], [0.0, f32::NEG_INFINITY], [1_048_576.1, 0.0], [0.0, -1_048_577.0]] {
        assert_eq!(g.insert(at, 3, 5), Err(OutsideDomain));
        assert_eq!(g.set_position(a, at, 5), Err(OutsideDomain));
        assert_eq!(g.query(at, at).err(), Some(OutsideDomain));
        assert_eq!(g.query_aabb([0.0; 2], at).err(), Some(OutsideDomain));
        assert_eq!(g.query_around(at, 1.0).err(), Some(OutsideDomain));
        assert_eq!(g.nearest(at, 1.0), Err(OutsideDomain));
    }
    for radius in [-1.0, NAN, f32::INFINITY, 2_000_000.0] {
        assert_eq!(g.query_around([0.0; 2], radius).err(), Some(OutsideDomain));
        assert_eq!(g.nearest([0.0; 2], radius), Err(OutsideDomain));
    }
    let none = [Handle::default(), Handle { slot: 0, version: 2 }, Handle { slot: 2, version: 1 }, Handle { slot: u32::MAX, version: u32::MAX }];
    for h in none {
        assert_eq!(g.set_position(h, [0.0; 2], 5), Err(NeverIssued));
        assert_eq!((g.remove(h, 5), g.remove_maintain(h, 5), g.get(h).err()), (Err(NeverIssued), Err(NeverIssued), Some(NeverIssued)));
    }
    let found: Vec<_> = g.query([0.0; 2], [63.0; 2]).unwrap().collect();
    assert_eq!(found, [Found { handle: a, position: [3.0, 4.0], obj: 1, tracker: 5 }]);
    assert_eq!(g.query([0.0; 2], [64.0, 63.0]).err(), Some(TooManyCells));
    assert_eq!(g.query_around([0.0; 2], -0.0).unwrap().len(), 0);
    assert_eq!(g.query([9.0; 2], [0.0; 2]).unwrap().len(), 0);
    assert_eq!((g.nearest([0.0; 2], 31.5), g.nearest([0.0; 2], 32.0)), (Ok(Some(found[0])), Err(TooManyCells)));
    assert_eq!(told(&mut g), before);
}

#[test]
fn nearest() {
    let mut g = Grid::new(10, 8).unwrap();
    assert_eq!(g.nearest([0.0; 2], 100.0), Ok(None));
    let one = |g: &Grid, centre, radius| g.nearest(centre, radius).unwrap().map(|f| f.obj);
    let far = g.insert([30.0, 0.0], 1, 0).unwrap();
    let (left, right) = (g.insert([-5.0, 0.0], 2, 7).unwrap(), g.insert([5.0, 0.0], 3, 0).unwrap());
    // equally near: the lowest slot, in whatever cell, and whichever came last
    assert_eq!(g.nearest([0.0; 2], 100.0), Ok(Some(Found { handle: left, position: [-5.0, 0.0], obj: 2, tracker: 7 })));
    g.set_position(left, [5.0, 0.0], 7).unwrap();
    assert_eq!(g.nearest([4.0, 0.0], 100.0).unwrap().map(|f| f.handle), Some(right)); // what is pending is not seen
    g.maintain();
    assert_eq!((one(&g, [0.0; 2], 100.0), one(&g, [4.0, 3.0], 100.0)), (Some(2), Some(2)));
    // strictly inside, and a radius of 0 holds not even its centre
    assert_eq!((one(&g, [0.0; 2], 5.0), one(&g, [0.0; 2], 5.000001)), (None, Some(2)));
    assert_eq!((one(&g, [5.0, 0.0], 0.0), one(&g, [5.0, 0.0], -0.0), one(&g, [5.0, 0.0], 1e-20)), (None, None, Some(2)));
    // distances that differ by less than a rounding are equal: both squares are 1
    g.set_position(right, [0.0, 99.0], 0).unwrap();
    g.set_position(far, [1e-9, 101.0], 0).unwrap();
    g.maintain();
    assert_eq!(one(&g, [0.0, 100.0], 2.0), Some(1));
    // a negative zero is given as it is recorded, and is as near as the other
    let zero = g.insert([-0.0, 0.0], 4, 1).unwrap();
    g.insert([0.0, -0.0], 5, 1).unwrap();
    let f = g.nearest([0.0, -0.0], 1.0).unwrap().unwrap();
    assert_eq!((f.handle, f.position.map(f32::to_bits), f.obj), (zero, [1 << 31, 0], 4));
    g.remove_maintain(zero, 1).unwrap();
    assert_eq!(one(&g, [0.0; 2], 1.0), Some(5));
}

/// The map of a pair of grids: column, row and byte of each block that is not 0.
fn mapped(p: &Grid, b: &AabbGrid, circles: &[[f32; 3]]) -> Vec<(usize, usize, u8)> {
    let mut map = [77; BLOCKS];
    fill_map(p, b, circles, &mut map).unwrap();
    (0..BLOCKS).filter(|k| map[*k] != 0).map(|k| (k % COLUMNS, k / COLUMNS, map[k])).collect()
}

#[test]
fn maps() {
    let (mut p, mut b) = (Grid::new(16, 8).unwrap(), AabbGrid::new(16, 8, 64).unwrap());
    assert_eq!((COLUMNS * ROWS, mapped(&p, &b, &[]), mapped(&p, &b, &[[0.0, 0.0, 500.0]; 16])), (BLOCKS, vec![], vec![]));
    // left and top edge in, right and bottom out, of a block and of the frame
    let mut handles = vec![];
    for at in [[-0.0, 0.0], [16.0, 15.999999], [1279.9999, 719.99994], [1280.0, 0.0], [0.0, 720.0], [-1e-20, 5.0], [5.0, -1e-20]] {
        handles.push(p.insert(at, 0, 3).unwrap());
    }
    assert_eq!(mapped(&p, &b, &[]), [(0, 0, 1), (1, 0, 1), (79, 44, 1)]);
    // the circle's edge is out, and what it finds outside the frame is in no block
    assert_eq!(mapped(&p, &b, &[[26.0, 16.0, 10.0]]), [(0, 0, 1), (1, 0, 1), (79, 44, 1)]);
    let around = [[26.0, 16.0, 10.000001], [1280.0, 0.0, 1.0], [0.0, 0.0, 0.0]];
    assert_eq!(mapped(&p, &b, &around), [(0, 0, 1), (1, 0, 3), (79, 44, 1)]);
    // a box is met with all four edges; 3 goes before it, and it goes before a point that no circle finds
    b.insert(Aabb::new([16.0; 2], [16.0; 2]), 1).unwrap();
    assert_eq!(mapped(&p, &b, &around), [(0, 0, 2), (1, 0, 3), (0, 1, 2), (1, 1, 2), (79, 44, 1)]);
    // what shares a cell with the block and does not meet it is no box of it
    assert_eq!(b.clear().count(), 1);
    b.insert(Aabb::new([17.0; 2], [18.0; 2]), 1).unwrap();
    assert_eq!(mapped(&p, &b, &[]), [(0, 0, 1), (1, 0, 1), (1, 1, 2), (79, 44, 1)]);
    // pending states do not count until maintain
    p.set_position(handles[0], [100.0, 100.0], 3).unwrap();
    p.remove(handles[2], 3).unwrap();
    assert_eq!(mapped(&p, &b, &[[100.0, 100.0, 1.0], [1279.0, 719.0, 2.0]]), [(0, 0, 1), (1, 0, 1), (1, 1, 2), (79, 44, 3)]);
    p.maintain();
    assert_eq!(mapped(&p, &b, &[[100.0, 100.0, 1.0], [1279.0, 719.0, 2.0]]), [(1, 0, 1), (1, 1, 2), (6, 6, 3)]);
}

#[test]
fn refused_maps() {
    let (p, b) = (Grid::new(16, 8).unwrap(), AabbGrid::new(16, 8, 64).unwrap());
    let mut map = [77; BLOCKS + 1];
    // 3 before 6 before 7, whichever circle comes first
    let (bad, wide) = ([NAN, 0.0, 1.0], [0.0, 0.0, 600.0]);
    for circles in [[bad, wide], [wide, bad]] {
        for bytes in [0, BLOCKS - 1, BLOCKS + 1] {
            assert_eq!(fill_map(&p, &b, &circles, &mut map[..bytes]), Err(Tables));
        }
        for (p, b) in [(&Grid::new(15, 8).unwrap(), &b), (&p, &AabbGrid::new(32, 8, 64).unwrap())] {
            assert_eq!(fill_map(p, b, &circles, &mut map[..BLOCKS]), Err(Tables));
        }
        assert_eq!(fill_map(&p, &b, &circles, &mut map[..BLOCKS]), Err(OutsideDomain));
    }
    assert_eq!(fill_map(&p, &b, &[bad; 17], &mut map[..BLOCKS]), Err(Tables));
    assert_eq!(fill_map(&p, &b, &[wide; 16], &mut map[..BLOCKS]), Err(TooManyCells));
    for c in [[0.0, f32::INFINITY, 1.0], [1_048_577.0, 0.0, 1.0], [0.0, 0.0, -1.0], [0.0, 0.0, NAN], [0.0, 0.0, 2_000_000.0]] {
        assert_eq!(fill_map(&p, &b, &[[0.0; 3], c], &mut map[..BLOCKS]), Err(OutsideDomain));
    }
    assert_eq!(map, [77; BLOCKS + 1]);
    // 64 by 64 cells are not too many
    assert_eq!(fill_map(&p, &b, &[[512.0, 512.0, 512.0]], &mut map[..BLOCKS]), Err(TooManyCells));
    assert_eq!(fill_map(&p, &b, &[[512.0, 512.0, 511.9]], &mut map[..BLOCKS]), Ok(()));
    assert_eq!((map[..BLOCKS].iter().max(), map[BLOCKS]), (Some(&0), 77));
}

/// Answer and count of a query, and its outputs.
type Queried = ([u32; 2], [Handle; 2], [[f32; 2]; 2], Vec<[u32; 2]>);

/// What each query gives that finds both points, with outputs of 2, 2 and this many places, which are marked before.
fn queried(t: &mut Lent, places: usize) -> Vec<Queried> {
    let mark = Handle { slot: 77, version: 77 };
    (0..3)
        .map(|which| {
            let (mut found, mut at, mut objs) = ([mark; 2], [[0.5; 2]; 2], vec![[77; 2]; places]);
            let (f, p, o) = (found.as_mut_ptr(), at.as_mut_ptr(), objs.as_mut_ptr());
            let r = match which {
                0 => call!(chavrupas_points_query, t, 0.0, 0.0, 9.0, 9.0, f, 2, p, 2, o, places),
                1 => call!(chavrupas_points_query_aabb, t, 0.0, 0.0, 9.0, 9.0, f, 2, p, 2, o, places),
                _ => call!(chavrupas_points_query_around, t, 0.0, 0.0, 8.0, f, 2, p, 2, o, places),
            };
            ([r.answer, r.count], found, at, objs)
        })
        .collect()
}

#[test]
fn outputs() {
    let mut t = Lent::default();
    assert_eq!(call!(chavrupas_points_new, t, 10), 0);
    assert_eq!(call!(chavrupas_points_insert, t, 1.0, 2.0, 5, 6).answer, 0);
    assert_eq!(call!(chavrupas_points_insert, t, 3.0, 4.0, u32::MAX, 7).answer, 0);
    // too few places for the data alone: 9 with the number found, and nothing is written
    let mark = Handle { slot: 77, version: 77 };
    assert_eq!(queried(&mut t, 1), vec![([9, 2], [mark; 2], [[0.5; 2]; 2], vec![[77; 2]]); 3]);
    // a place too many is left as it was
    let handles = [Handle { slot: 0, version: 1 }, Handle { slot: 1, version: 1 }];
    assert_eq!(queried(&mut t, 3), vec![([0, 2], handles, [[1.0, 2.0], [3.0, 4.0]], vec![[5, 6], [u32::MAX, 7], [77; 2]]); 3]);
}

/// All that `nearest` gives, positions by bits.
fn nearest_told(t: &mut Lent, centre: [f32; 2], radius: f32) -> [u32; 8] {
    let r = call!(chavrupas_points_nearest, t, centre[0], centre[1], radius);
    [r.answer, r.count, r.handle.slot, r.handle.version, r.position[0].to_bits(), r.position[1].to_bits(), r.obj, r.tracker]
}

#[test]
fn nearest_as_c_has_it() {
    let mut t = Lent::default();
    assert_eq!(nearest_told(&mut t, [0.0; 2], 1.0), [3, 0, 0, 0, 0, 0, 0, 0]);
    assert_eq!(call!(chavrupas_points_new, t, 10), 0);
    assert_eq!(nearest_told(&mut t, [-0.0; 2], 9.0), [0; 8]);
    assert_eq!(call!(chavrupas_points_insert, t, 1.0, -0.0, u32::MAX, 7).answer, 0);
    assert_eq!(nearest_told(&mut t, [0.0; 2], 9.0), [0, 1, 0, 1, 1f32.to_bits(), 1 << 31, u32::MAX, 7]);
    assert_eq!(nearest_told(&mut t, [0.0; 2], NAN), [6, 0, 0, 0, 0, 0, 0, 0]);
    assert_eq!(nearest_told(&mut t, [0.0; 2], 1000.0), [7, 0, 0, 0, 0, 0, 0, 0]);
    t.map[1] = 2; // an entry more than there are objects
    assert_eq!(nearest_told(&mut t, [NAN; 2], -1.0), [3, 0, 0, 0, 0, 0, 0, 0]);
}

#[test]
fn batches() {
    let mut g = Grid::new(10, 2).unwrap();
    let a = g.insert([3.0, 4.0], 1, 4).unwrap();
    let mut out = [Reply { answer: 77, obj: 77 }; 3];
    let (kinds, at) = ([Kind::SetPosition, Kind::Remove, Kind::SetPosition], [[NAN, 0.0]; 3]);
    assert_eq!(g.batch(&kinds, &[a.by(4); 2], &at, &mut out), Err(Tables));
    assert_eq!(g.batch(&kinds, &[a.by(4); 3], &at, &mut out[..2]), Err(OutputTooShort));
    assert_eq!(g.batch(&[], &[], &[], &mut []), Ok(0));
    assert_eq!(out, [Reply { answer: 77, obj: 77 }; 3]);
    assert_eq!(g.batch(&kinds, &[a.by(4); 3], &at, &mut out), Ok(3));
    assert_eq!(out.map(Reply::result), [Err(OutsideDomain), Ok(1), Err(OutsideDomain)]);
    assert_eq!(g.set_position(a, [0.0; 2], 4), Err(Removed));
}

#[test]
fn boxes() {
    let mut g = AabbGrid::new(1, 2, 64).unwrap();
    let unit = Aabb::new([0.0; 2], [0.5; 2]);
    let a = g.insert(unit, 1).unwrap();
    for (b, why) in [
        (Aabb::new([1.0, 0.0], [0.0, 0.0]), OutsideDomain),
        (Aabb::new([NAN; 2], [NAN; 2]), OutsideDomain),
        (Aabb::new([0.0; 2], [64.0, 63.0]), TooManyCells),
        (Aabb::new([0.0; 2], [8.0; 2]), PoolFull),
    ] {
        assert_eq!(g.insert(b, 2), Err(why));
        assert_eq!(g.set_aabb(a, b), Err(why));
        if why != PoolFull {
            assert_eq!((g.query(b).err(), g.query_broad(b).err()), (Some(why), Some(why)));
        }
    }
    assert_eq!(g.set_aabb(Handle { slot: 0, version: 2 }, unit), Err(NeverIssued));
    assert_eq!((g.get(a), g.len()), (Ok((unit, 1)), 1));
    g.insert(unit, 2).unwrap();
    assert_eq!(g.insert(unit, 3), Err(NoUsableSlot));
    assert_eq!(g.clear().collect::<Vec<_>>(), [(unit, 1), (unit, 2)]);
    assert_eq!(g.get(a), Err(Gone));
}

/// Handles that are not good where, of three slots, 0 is occupied at version 2, 1 is free at version 2, and 2 was never used.
fn lost() -> impl Iterator<Item = (Handle, Refusal)> {
    let past = [(3, 1), (3, 0), (64, 1), (u32::MAX, 1), (u32::MAX, u32::MAX)];
    let never = [(0, 0), (1, 0), (2, 0), (0, 3), (0, u32::MAX), (1, 3), (2, 2), (1, 2), (2, 1)];
    let gone = [(0, 1), (1, 1)];
    let never = past.into_iter().chain(never).map(|h| (h, NeverIssued));
    never.chain(gone.map(|h| (h, Gone))).map(|((slot, version), why)| (Handle { slot, version }, why))
}

#[test]
fn lost_points() {
    let mut g = Grid::new(10, 3).unwrap();
    let (a, b) = (g.insert([0.0; 2], 1, 0).unwrap(), g.insert([5.0; 2], 2, 0).unwrap());
    assert_eq!((g.remove(a, 0), g.maintain().removed, g.remove_maintain(b, 0)), (Ok(1), 1, Ok(2)));
    let again = g.insert([7.0; 2], 3, 0).unwrap();
    assert_eq!(again, Handle { slot: 0, version: 2 });
    let before = told(&mut g);
    for (h, why) in lost() {
        assert_eq!((g.get(h), g.remove(h, 0), g.remove_maintain(h, 0)), (Err(why), Err(why), Err(why)));
        // a bad position is told before the handle
        assert_eq!((g.set_position(h, [0.0; 2], 0), g.set_position(h, [0.0, NAN], 0)), (Err(why), Err(OutsideDomain)));
        let (kinds, at) = ([Kind::SetPosition, Kind::Remove, Kind::SetPosition], [[0.0; 2], [NAN; 2], [NAN; 2]]);
        let mut out = [Reply { answer: 77, obj: 77 }; 3];
        assert_eq!(g.batch(&kinds, &[h.by(0); 3], &at, &mut out), Ok(3));
        assert_eq!(out.map(|r| [r.answer, r.obj]), [[why.number(), 0], [why.number(), 0], [6, 0]]);
    }
    assert_eq!(told(&mut g), before);
    assert_eq!(g.clear().count(), 1);
    assert_eq!((g.get(again), g.get(a), g.get(b)), (Err(Gone), Err(Gone), Err(Gone)));
    assert_eq!(g.get(Handle { slot: 0, version: 3 }), Err(NeverIssued)); // what the next insert gives
}

#[test]
fn lost_boxes() {
    let mut g = AabbGrid::new(1, 3, 8).unwrap();
    let unit = Aabb::new([0.0; 2], [0.5; 2]);
    let (a, b) = (g.insert(unit, 1).unwrap(), g.insert(unit, 2).unwrap());
    assert_eq!((g.remove(a), g.remove(b)), (Ok(1), Ok(2)));
    let again = g.insert(unit, 3).unwrap();
    assert_eq!(again, Handle { slot: 0, version: 2 });
    for (h, why) in lost() {
        assert_eq!((g.get(h), g.remove(h), g.set_aabb(h, unit)), (Err(why), Err(why), Err(why)));
        // a bad box is told before the handle; one of too many cells, or that the pool has no room for, is not
        for bad in [Aabb::new([1.0, 0.0], [0.0; 2]), Aabb::new([0.0; 2], [NAN; 2])] {
            assert_eq!(g.set_aabb(h, bad), Err(OutsideDomain));
        }
        for large in [Aabb::new([0.0; 2], [64.0, 63.0]), Aabb::new([0.0; 2], [8.0; 2])] {
            assert_eq!(g.set_aabb(h, large), Err(why));
        }
    }
    assert_eq!((g.get(again), g.len()), (Ok((unit, 3)), 1));
    assert_eq!(g.clear().count(), 1);
    assert_eq!((g.get(again), g.get(a), g.get(b)), (Err(Gone), Err(Gone), Err(Gone)));
    assert_eq!(g.get(Handle { slot: 0, version: 3 }), Err(NeverIssued)); // what the next insert gives
}

/// What each call that takes a handle gives for it: `get`, `set_position`, both removals, and a batch of the deferred ones.
fn asked(t: &mut Lent, slot: u32, version: u32) -> [[u32; 5]; 6] {
    let words = |r: Reply| [r.answer, r.obj, 0, 0, 0];
    let got = call!(chavrupas_points_get, t, slot, version);
    let moved = call!(chavrupas_points_set_position, t, slot, version, 0.0, 0.0, 7);
    let marked = call!(chavrupas_points_remove, t, slot, version, 7);
    let taken = call!(chavrupas_points_remove_maintain, t, slot, version, 7);
    let (kinds, handles, at) = ([0, 1], [Handle { slot, version }.by(7); 2], [[0.0; 2]; 2]);
    let mut out = [Reply { answer: 77, obj: 77 }; 2];
    let batch = call!(chavrupas_points_batch, t, kinds.as_ptr(), 2, handles.as_ptr(), 2, at.as_ptr(), 2, out.as_mut_ptr(), 2);
    assert_eq!((batch.answer, batch.count), (0, 2));
    let got = [got.answer, got.x.to_bits(), got.y.to_bits(), got.obj, got.tracker];
    [got, [moved, 0, 0, 0, 0], words(marked), words(taken), words(out[0]), words(out[1])]
}

/// A point in slot 0 at the last version, which no history of this length reaches: the version is written to the table.
fn last_point() -> Lent {
    let mut t = Lent::default();
    assert_eq!(call!(chavrupas_points_new, t, 10), 0);
    assert_eq!(call!(chavrupas_points_insert, t, 1.0, 2.0, 5, 7).answer, 0);
    t.nums[0][0] = u32::MAX;
    assert_eq!(call!(chavrupas_points_get, t, 0, u32::MAX).obj, 5);
    assert_eq!(asked(&mut t, 0, u32::MAX - 1), [[12, 0, 0, 0, 0]; 6]);
    t
}

#[test]
fn retired_points() {
    for way in 0..3 {
        let mut t = last_point();
        let (mut at, mut objs) = ([[0.0; 2]; 1], [[0; 2]; 1]);
        match way {
            0 => assert_eq!(call!(chavrupas_points_remove_maintain, t, 0, u32::MAX, 7).obj, 5),
            1 => assert_eq!(call!(chavrupas_points_clear, t, at.as_mut_ptr(), 1, objs.as_mut_ptr(), 1).count, 1),
            _ => {
                assert_eq!(call!(chavrupas_points_remove, t, 0, u32::MAX, 7).obj, 5);
                assert_eq!(call!(chavrupas_points_maintain, t).removed, 1);
            }
        }
        for (version, answer) in [(u32::MAX, 12), (u32::MAX - 1, 12), (1, 12), (0, 11)] {
            assert_eq!(asked(&mut t, 0, version), [[answer, 0, 0, 0, 0]; 6]);
            assert_eq!(call!(chavrupas_points_set_position, t, 0, version, NAN, 0.0, 7), 6);
        }
        // the slot serves no more
        let next = call!(chavrupas_points_insert, t, 1.0, 2.0, 6, 7);
        assert_eq!((next.answer, next.slot, next.version), (0, 1, 1));
    }
}

/// The tables of a box grid of two slots and two entries, lent as C lends them.
#[derive(Default)]
struct LentBoxes {
    nums: [[u32; 4]; 2],
    reals: [Aabb; 2],
    map: [u64; 4],
    pool: [[u64; 2]; 2],
}

macro_rules! call_boxes {
    ($export:ident, $t:expr $(, $arg:expr)*) => {
        unsafe {
            ffi::$export(
                $t.nums.as_mut_ptr(), 2, $t.reals.as_mut_ptr(), 2, $t.map.as_mut_ptr(), 4, $t.pool.as_mut_ptr(), 2 $(, $arg)*
            )
        }
    };
}

/// The answer of `fill_map` on these tables, without a circle: the whole map is filled, or none of it.
fn map_told(t: &mut Lent, b: &LentBoxes) -> u32 {
    let (mut map, none) = ([77; BLOCKS], [[0.0; 3]; 0]);
    let (nums, reals, words, pool) = (b.nums.as_ptr(), b.reals.as_ptr(), b.map.as_ptr(), b.pool.as_ptr());
    let answer = call!(chavrupas_encoder_fill_map, t, nums, 2, reals, 2, words, 4, pool, 2, none.as_ptr(), 0, map.as_mut_ptr(), BLOCKS);
    assert_eq!(map, if answer == 0 { [0; BLOCKS] } else { [77; BLOCKS] });
    answer
}

#[test]
fn maps_as_c_has_them() {
    let (mut t, mut b) = (Lent::default(), LentBoxes::default());
    assert_eq!(map_told(&mut t, &b), 3);
    assert_eq!(call!(chavrupas_points_new, t, 16), 0);
    assert_eq!(map_told(&mut t, &b), 3); // the boxes are not built
    assert_eq!(call_boxes!(chavrupas_boxes_new, b, 16), 0);
    assert_eq!(map_told(&mut t, &b), 0);
    t.map[1] = 1; // an entry more than there are objects
    assert_eq!(map_told(&mut t, &b), 3);
    t.map[1] = 0;
    b.map[1] = 1;
    assert_eq!(map_told(&mut t, &b), 3);
    b.map[1] = 0;
    for size in [1, 15, 17, 1_048_576] {
        (t.map[0], b.map[0]) = (size, 16);
        assert_eq!(map_told(&mut t, &b), 3);
        (t.map[0], b.map[0]) = (16, size);
        assert_eq!(map_told(&mut t, &b), 3);
    }
}

/// What each call of the box grid that takes a handle gives for it, boxes by bits.
fn asked_boxes(t: &mut LentBoxes, slot: u32, version: u32) -> [[u32; 6]; 3] {
    let got = call_boxes!(chavrupas_boxes_get, t, slot, version);
    let set = call_boxes!(chavrupas_boxes_set_aabb, t, slot, version, 0.0, 0.0, 1.0, 1.0);
    let taken = call_boxes!(chavrupas_boxes_remove, t, slot, version);
    let [l, b, r, u] = [got.aabb.ll[0], got.aabb.ll[1], got.aabb.ur[0], got.aabb.ur[1]].map(f32::to_bits);
    [[got.answer, l, b, r, u, got.obj], [set, 0, 0, 0, 0, 0], [taken.answer, taken.obj, 0, 0, 0, 0]]
}

#[test]
fn retired_boxes() {
    for clears in [false, true] {
        let mut t = LentBoxes::default();
        assert_eq!(call_boxes!(chavrupas_boxes_new, t, 10), 0);
        assert_eq!(call_boxes!(chavrupas_boxes_insert, t, 1.0, 2.0, 3.0, 4.0, 5).answer, 0);
        t.nums[0][0] = u32::MAX;
        assert_eq!(call_boxes!(chavrupas_boxes_get, t, 0, u32::MAX).obj, 5);
        assert_eq!(asked_boxes(&mut t, 0, u32::MAX - 1), [[12, 0, 0, 0, 0, 0]; 3]);
        let (mut boxes, mut objs) = ([Aabb::default(); 1], [0; 1]);
        if clears {
            assert_eq!(call_boxes!(chavrupas_boxes_clear, t, boxes.as_mut_ptr(), 1, objs.as_mut_ptr(), 1).count, 1);
        } else {
            assert_eq!(call_boxes!(chavrupas_boxes_remove, t, 0, u32::MAX).obj, 5);
        }
        for (version, answer) in [(u32::MAX, 12), (u32::MAX - 1, 12), (1, 12), (0, 11)] {
            assert_eq!(asked_boxes(&mut t, 0, version), [[answer, 0, 0, 0, 0, 0]; 3]);
            assert_eq!(call_boxes!(chavrupas_boxes_set_aabb, t, 0, version, 1.0, 0.0, 0.0, 0.0), 6);
        }
        // the slot serves no more
        let next = call_boxes!(chavrupas_boxes_insert, t, 1.0, 2.0, 3.0, 4.0, 6);
        assert_eq!((next.answer, next.slot, next.version), (0, 1, 1));
    }
}

#[test]
fn numbers() {
    let all: Vec<u32> = (0..100).filter(|n| Refusal::of(*n).is_some()).collect();
    assert_eq!(all, [1, 2, 3, 4, 6, 7, 8, 9, 11, 12, 13, 14]);
    assert!(all.iter().all(|n| Refusal::of(*n).unwrap().number() == *n));
    assert_eq!((NeverIssued.to_string(), Gone.to_string()), ("handle never issued".to_string(), "handle of an object that is gone".to_string()));
    assert_eq!((NoTracker.to_string(), OtherTracker.to_string()), ("tracker number above 7".to_string(), "point of another tracker".to_string()));
}

#[test]
#[should_panic(expected = "5 is no answer")]
fn five() {
    let _ = Reply { answer: 5, obj: 0 }.result();
}
