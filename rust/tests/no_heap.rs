//! All memory is taken in `new`: after it no call allocates.
use std::alloc::{GlobalAlloc, Layout, System};
use std::cell::Cell;

use chavrupas::{encoder, Aabb, AabbGrid, Grid, Kind, Reply};

thread_local!(static TAKEN: Cell<usize> = const { Cell::new(0) });

struct Counting;

unsafe impl GlobalAlloc for Counting {
    unsafe fn alloc(&self, layout: Layout) -> *mut u8 {
        TAKEN.with(|t| t.set(t.get() + 1));
        System.alloc(layout)
    }

    unsafe fn dealloc(&self, p: *mut u8, layout: Layout) {
        System.dealloc(p, layout)
    }
}

#[global_allocator]
static COUNTING: Counting = Counting;

fn taken() -> usize {
    TAKEN.with(Cell::get)
}

#[test]
fn points() {
    let mut g = Grid::new(16, 256).unwrap();
    let mut out = [Reply::default(); 2];
    let before = taken();
    assert!(before > 0);
    for _ in 0..3 {
        for i in 0..256 {
            g.insert([i as f32 * 3.0, i as f32], i, i % 8).unwrap();
        }
        let (a, b) = (g.handles()[0], g.handles()[1]);
        g.set_position(a, [900.0, -900.0], 0).unwrap();
        g.batch(&[Kind::Remove, Kind::SetPosition], &[b.by(1), a.by(0)], &[[0.0; 2], [5.0; 2]], &mut out).unwrap();
        assert_eq!((g.maintain().removed, g.len()), (1, 255));
        assert_eq!(g.get(a).unwrap().1, 0);
        assert!(g.query([0.0; 2], [100.0; 2]).unwrap().count() > 0);
        assert!(g.query_around([50.0; 2], 40.0).unwrap().count() > 0);
        assert!(g.query_aabb([100.0; 2], [0.0; 2]).unwrap().count() > 0);
        assert!(g.nearest([50.0; 2], 40.0).unwrap().is_some());
        assert_eq!(g.remove(a, 0), Ok(0));
        assert_eq!(g.remove_maintain(a, 0), Ok(0));
        assert_eq!((g.clear().count(), g.len()), (254, 0));
    }
    assert_eq!(taken(), before);
}

#[test]
fn boxes() {
    let mut g = AabbGrid::new(16, 64, 1024).unwrap();
    let before = taken();
    for i in 0..64 {
        let x = i as f32 * 7.0;
        g.insert(Aabb::new([x, 0.0], [x + 20.0, 20.0]), i).unwrap();
    }
    let a = g.handles()[0];
    g.set_aabb(a, Aabb::new([-50.0; 2], [50.0; 2])).unwrap();
    assert_eq!((g.get(a).unwrap().1, g.len()), (0, 64));
    assert!(g.query_broad(Aabb::new([0.0; 2], [9.0; 2])).unwrap().len() > 1);
    assert!(g.query(Aabb::new([0.0; 2], [9.0; 2])).unwrap().len() > 1);
    assert_eq!(g.remove(a), Ok(0));
    assert_eq!(g.clear().count(), 63);
    assert_eq!(taken(), before);
}

#[test]
fn maps() {
    let (mut p, mut b) = (Grid::new(16, 256).unwrap(), AabbGrid::new(16, 64, 1024).unwrap());
    let mut map = [0; encoder::BLOCKS];
    let before = taken();
    for i in 0..64 {
        let x = i as f32 * 7.0;
        p.insert([x, x], i, 0).unwrap();
        b.insert(Aabb::new([x, 0.0], [x + 20.0, 20.0]), i).unwrap();
    }
    encoder::fill_map(&p, &b, &[[50.0, 50.0, 40.0]; 16], &mut map).unwrap();
    assert!((0..4).all(|byte| map.contains(&byte)));
    assert_eq!(taken(), before);
}
