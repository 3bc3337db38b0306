//! Every call of the point grid as data, made of the port or read in document 01.
use crate::calls::{filled, plain, refused, untouched, Outcome};
use crate::holds::{point_lengths, Read};
use crate::point_reading::{nearest_words, Deferred, Filled, Finding, Points};
use crate::port::{BatchLists, Corners};
use crate::rules::*;
use crate::slots::Handle;
use crate::tables::{Out, Outs, PointTables};

#[derive(Clone, Debug)]
pub enum PointCall {
    New(u32),
    /// Position, data and tracker.
    Insert(Spot, u32, u32),
    /// The last number of these three is the tracker's.
    SetPosition(Handle, Spot, u32),
    Remove(Handle, u32),
    RemoveMaintain(Handle, u32),
    /// The calls, and how many kinds too many.
    Batch(Vec<Deferred>, usize, usize),
    Maintain,
    Get(Handle),
    Len,
    Handles(usize),
    Clear(usize, usize),
    Query(Corners, Spot, Spot, [usize; 3]),
    Around(Spot, f32, [usize; 3]),
    Nearest(Spot, f32),
}

impl PointCall {
    /// The port's answer, and its tables after it.
    pub fn of_port(&self, t: &mut PointTables) -> Outcome {
        match self {
            PointCall::New(size) => plain(t.call_new(*size), vec![]),
            PointCall::Insert(at, data, tracker) => {
                let r = t.call_insert(*at, *data, *tracker);
                plain(r.answer, vec![r.slot.into(), r.version.into()])
            }
            PointCall::SetPosition(h, at, tracker) => plain(t.call_set_position(*h, *at, *tracker), vec![]),
            PointCall::Remove(h, tracker) => {
                let r = t.call_remove(*h, *tracker);
                plain(r.answer, vec![r.obj.into()])
            }
            PointCall::RemoveMaintain(h, tracker) => {
                let r = t.call_remove_maintain(*h, *tracker);
                plain(r.answer, vec![r.obj.into()])
            }
            PointCall::Batch(calls, more, places) => {
                let mut lists = BatchLists::of(calls);
                lists.kinds.resize(calls.len() + more, 0);
                let mut out = Out::new(*places);
                let r = t.call_batch(&lists, &mut out);
                Outcome { answer: r.answer, numbers: vec![r.count], outs: vec![out.words()] }
            }
            PointCall::Maintain => {
                let r = t.call_maintain();
                plain(r.answer, vec![r.moved.into(), r.removed.into()])
            }
            PointCall::Get(h) => {
                let r = t.call_get(*h);
                plain(r.answer, vec![r.x.to_bits().into(), r.y.to_bits().into(), r.obj.into(), r.tracker.into()])
            }
            PointCall::Nearest(centre, r) => {
                let r = t.call_nearest(*centre, *r);
                plain(r.answer, r.words().map(u64::from).to_vec())
            }
            _ => self.of_port_filling(t),
        }
    }

    /// The calls that fill an output.
    fn of_port_filling(&self, t: &mut PointTables) -> Outcome {
        let (r, outs) = match self {
            PointCall::Handles(places) => {
                let mut out = Out::<2>::new(*places);
                (t.call_handles(&mut out), vec![out.words()])
            }
            PointCall::Clear(places, more) => {
                let (mut spots, mut objs) = (Out::new(*places), Out::new(*more));
                (t.call_clear(&mut spots, &mut objs), vec![spots.words(), objs.words()])
            }
            PointCall::Query(kind, ll, ur, lens) => {
                let mut outs = Outs::new(*lens);
                (t.call_query(*kind, *ll, *ur, &mut outs), outs.words())
            }
            PointCall::Around(centre, r, lens) => {
                let mut outs = Outs::new(*lens);
                (t.call_query_around(*centre, *r, &mut outs), outs.words())
            }
            _ => (t.call_len(), vec![]),
        };
        Outcome { answer: r.answer, numbers: vec![r.count.into()], outs }
    }

    /// What document 01 says of tables that hold this grid, and the grid after it.
    pub fn of_reading(&self, grid: &mut Points) -> Outcome {
        match self {
            PointCall::New(size) => {
                let answer = first(&[(!size_in_domain((*size).into()), SIZE)]);
                if answer == DONE {
                    *grid = Points::new(grid.slots.slots.len(), *size);
                }
                plain(answer, vec![])
            }
            PointCall::Insert(at, data, tracker) => {
                let (answer, h) = grid.insert(*at, *data, *tracker);
                plain(answer, vec![h.slot.into(), h.version.into()])
            }
            PointCall::SetPosition(h, at, tracker) => plain(grid.set_position(*h, *at, *tracker), vec![]),
            PointCall::Remove(h, tracker) => {
                let (answer, data) = grid.remove(*h, *tracker);
                plain(answer, vec![data.into()])
            }
            PointCall::RemoveMaintain(h, tracker) => {
                let (answer, data) = grid.remove_maintain(*h, *tracker);
                plain(answer, vec![data.into()])
            }
            PointCall::Batch(_, more, _) if *more > 0 => self.refused(TABLES),
            PointCall::Batch(calls, _, places) => {
                let r = grid.batch(calls, *places);
                Outcome { answer: r.answer, numbers: vec![r.count], outs: vec![filled(*places, r.out.into_iter())] }
            }
            PointCall::Maintain => {
                let (moved, removed) = grid.maintain();
                plain(DONE, vec![moved.into(), removed.into()])
            }
            PointCall::Get(h) => {
                let (answer, at, data, tracker) = grid.get(*h);
                plain(answer, vec![at.bits()[0].into(), at.bits()[1].into(), data.into(), tracker.into()])
            }
            PointCall::Nearest(centre, r) => {
                let (answer, found) = grid.nearest(*centre, *r);
                plain(answer, nearest_words(found).map(u64::from).to_vec())
            }
            _ => self.of_reading_filling(grid),
        }
    }

    fn of_reading_filling(&self, grid: &mut Points) -> Outcome {
        match self {
            PointCall::Handles(places) => {
                let r = grid.handles(*places);
                let rows = r.out.iter().map(|h| [h.slot, h.version]);
                Outcome { answer: r.answer, numbers: vec![r.count], outs: vec![filled(*places, rows)] }
            }
            PointCall::Clear(places, more) => {
                let r = grid.clear((*places).min(*more));
                let spots = filled(*places, r.out.iter().map(|(at, _)| at.bits()));
                let objs = filled(*more, r.out.iter().map(|(_, data)| *data));
                Outcome { answer: r.answer, numbers: vec![r.count], outs: vec![spots, objs] }
            }
            PointCall::Query(Corners::Cells, ll, ur, lens) => found(grid.query(*ll, *ur, Outs::room(lens)), lens),
            PointCall::Query(Corners::Sorted, ll, ur, lens) => found(grid.query_aabb(*ll, *ur, Outs::room(lens)), lens),
            PointCall::Around(centre, r, lens) => found(grid.query_around(*centre, *r, Outs::room(lens)), lens),
            _ => plain(DONE, vec![grid.slots.len() as u64]),
        }
    }

    /// A refusal: zeros, and outputs as they were.
    fn refused(&self, answer: u32) -> Outcome {
        let (numbers, words): (usize, Vec<usize>) = match self {
            PointCall::New(_) | PointCall::SetPosition(..) => (0, vec![]),
            PointCall::Insert(..) | PointCall::Maintain => (2, vec![]),
            PointCall::Remove(..) | PointCall::RemoveMaintain(..) | PointCall::Len => (1, vec![]),
            PointCall::Get(_) => (4, vec![]),
            PointCall::Nearest(..) => (7, vec![]),
            PointCall::Batch(_, _, places) | PointCall::Handles(places) => (1, vec![untouched::<2>(*places)]),
            PointCall::Clear(places, more) => (1, vec![untouched::<2>(*places), untouched::<2>(*more)]),
            PointCall::Query(_, _, _, [a, b, c]) | PointCall::Around(_, _, [a, b, c]) => {
                (1, vec![untouched::<2>(*a), untouched::<2>(*b), untouched::<2>(*c)])
            }
        };
        refused(answer, numbers, words)
    }

    /// What document 01 says of any tables: the outcome, and the grid after an accepted call.
    pub fn wanted(&self, t: &PointTables, held: &Read<Points>) -> (Outcome, Option<Points>) {
        let mut grid = match (self, held) {
            (PointCall::New(_), _) if point_lengths(t).is_ok() => Points::new(t.nums.len(), 1),
            (_, Ok(grid)) => grid.clone(),
            (_, Err(_)) => return (self.refused(TABLES), None),
        };
        let outcome = self.of_reading(&mut grid);
        let grid = (outcome.answer == DONE).then_some(grid);
        (outcome, grid)
    }
}

fn found(r: Filled<Finding>, lens: &[usize; 3]) -> Outcome {
    let handles = filled(lens[0], r.out.iter().map(|f| [f.handle.slot, f.handle.version]));
    let spots = filled(lens[1], r.out.iter().map(|f| f.at.bits()));
    let objs = filled(lens[2], r.out.iter().map(|f| [f.data, f.tracker]));
    Outcome { answer: r.answer, numbers: vec![r.count], outs: vec![handles, spots, objs] }
}
