//! Every call of the box grid as data, made of the port or read in document 01.
use crate::box_reading::{Aabb, Boxes};
use crate::calls::{filled, plain, refused, untouched, Outcome};
use crate::holds::{box_lengths, Read};
use crate::point_reading::Filled;
use crate::rules::*;
use crate::slots::Handle;
use crate::tables::{BoxTables, Out};

#[derive(Clone, Debug)]
pub enum BoxCall {
    New(u32),
    Insert(Aabb, u32),
    SetAabb(Handle, Aabb),
    Remove(Handle),
    Get(Handle),
    Len,
    Handles(usize),
    Clear(usize, usize),
    Broad(Aabb, usize),
    Query(Aabb, [usize; 3]),
}

impl BoxCall {
    pub fn of_port(&self, t: &mut BoxTables) -> Outcome {
        match self {
            BoxCall::New(size) => plain(t.call_new(*size), vec![]),
            BoxCall::Insert(aabb, data) => {
                let r = t.call_insert(*aabb, *data);
                plain(r.answer, vec![r.slot.into(), r.version.into()])
            }
            BoxCall::SetAabb(h, aabb) => plain(t.call_set_aabb(*h, *aabb), vec![]),
            BoxCall::Remove(h) => {
                let r = t.call_remove(*h);
                plain(r.answer, vec![r.obj.into()])
            }
            BoxCall::Get(h) => {
                let r = t.call_get(*h);
                let numbers = [r.left, r.low, r.right, r.high].map(|c| u64::from(c.to_bits()));
                plain(r.answer, numbers.into_iter().chain([r.obj.into()]).collect())
            }
            _ => self.of_port_filling(t),
        }
    }

    fn of_port_filling(&self, t: &mut BoxTables) -> Outcome {
        let (r, outs) = match self {
            BoxCall::Handles(places) => {
                let mut out = Out::<2>::new(*places);
                (t.call_handles(&mut out), vec![out.words()])
            }
            BoxCall::Clear(places, more) => {
                let (mut boxes, mut objs) = (Out::new(*places), Out::new(*more));
                (t.call_clear(&mut boxes, &mut objs), vec![boxes.words(), objs.words()])
            }
            BoxCall::Broad(q, places) => {
                let mut out = Out::<2>::new(*places);
                (t.call_query_broad(*q, &mut out), vec![out.words()])
            }
            BoxCall::Query(q, [places, more, most]) => {
                let (mut found, mut boxes, mut objs) = (Out::new(*places), Out::new(*more), Out::new(*most));
                (t.call_query(*q, &mut found, &mut boxes, &mut objs), vec![found.words(), boxes.words(), objs.words()])
            }
            _ => (t.call_len(), vec![]),
        };
        Outcome { answer: r.answer, numbers: vec![r.count.into()], outs }
    }

    pub fn of_reading(&self, grid: &mut Boxes) -> Outcome {
        match self {
            BoxCall::New(size) => {
                let answer = first(&[(!size_in_domain((*size).into()), SIZE)]);
                if answer == DONE {
                    *grid = Boxes::new(grid.slots.slots.len(), grid.pool, *size);
                }
                plain(answer, vec![])
            }
            BoxCall::Insert(aabb, data) => {
                let (answer, h) = grid.insert(*aabb, *data);
                plain(answer, vec![h.slot.into(), h.version.into()])
            }
            BoxCall::SetAabb(h, aabb) => plain(grid.set_aabb(*h, *aabb), vec![]),
            BoxCall::Remove(h) => {
                let (answer, data) = grid.remove(*h);
                plain(answer, vec![data.into()])
            }
            BoxCall::Get(h) => {
                let (answer, aabb, data) = grid.get(*h);
                plain(answer, aabb.bits().into_iter().chain([data]).map(u64::from).collect())
            }
            _ => self.of_reading_filling(grid),
        }
    }

    fn of_reading_filling(&self, grid: &mut Boxes) -> Outcome {
        let handles = |r: Filled<Handle>, places: usize| {
            let out = filled(places, r.out.iter().map(|h| [h.slot, h.version]));
            Outcome { answer: r.answer, numbers: vec![r.count], outs: vec![out] }
        };
        match self {
            BoxCall::Handles(places) => handles(grid.handles(*places), *places),
            BoxCall::Broad(q, places) => handles(grid.query_broad(*q, *places), *places),
            BoxCall::Clear(places, more) => {
                let r = grid.clear((*places).min(*more));
                let boxes = filled(*places, r.out.iter().map(|(aabb, _)| aabb.bits()));
                let objs = filled(*more, r.out.iter().map(|(_, data)| [*data]));
                Outcome { answer: r.answer, numbers: vec![r.count], outs: vec![boxes, objs] }
            }
            BoxCall::Query(q, lens) => {
                let r = grid.query(*q, *lens.iter().min().unwrap());
                let found = filled(lens[0], r.out.iter().map(|f| [f.handle.slot, f.handle.version]));
                let boxes = filled(lens[1], r.out.iter().map(|f| f.aabb.bits()));
                let objs = filled(lens[2], r.out.iter().map(|f| [f.data]));
                Outcome { answer: r.answer, numbers: vec![r.count], outs: vec![found, boxes, objs] }
            }
            _ => plain(DONE, vec![grid.slots.len() as u64]),
        }
    }

    fn refused(&self, answer: u32) -> Outcome {
        let (numbers, words): (usize, Vec<usize>) = match self {
            BoxCall::New(_) | BoxCall::SetAabb(..) => (0, vec![]),
            BoxCall::Insert(..) => (2, vec![]),
            BoxCall::Remove(_) | BoxCall::Len => (1, vec![]),
            BoxCall::Get(_) => (5, vec![]),
            BoxCall::Handles(places) | BoxCall::Broad(_, places) => (1, vec![untouched::<2>(*places)]),
            BoxCall::Clear(places, more) => (1, vec![untouched::<4>(*places), untouched::<1>(*more)]),
            BoxCall::Query(_, [a, b, c]) => (1, vec![untouched::<2>(*a), untouched::<4>(*b), untouched::<1>(*c)]),
        };
        refused(answer, numbers, words)
    }

    pub fn wanted(&self, t: &BoxTables, held: &Read<Boxes>) -> (Outcome, Option<Boxes>) {
        let mut grid = match (self, held) {
            (BoxCall::New(_), _) if box_lengths(t).is_ok() => Boxes::new(t.nums.len(), t.pool.len(), 1),
            (_, Ok(grid)) => grid.clone(),
            (_, Err(_)) => return (self.refused(TABLES), None),
        };
        let outcome = self.of_reading(&mut grid);
        let grid = (outcome.answer == DONE).then_some(grid);
        (outcome, grid)
    }
}
