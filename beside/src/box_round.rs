//! A round of calls on a box grid: the port, the original and the reading of document 01 are given the same calls, and held to each other.
use crate::box_reading::{Aabb, Boxes};
use crate::holds::read_boxes;
use crate::log::Log;
use crate::original::OldBoxes;
use crate::picks::{age, data, places};
use crate::places::Ground;
use crate::point_reading::Filled;
use crate::port::{Count, Inserted, Reply};
use crate::random::Rng;
use crate::rules::*;
use crate::slots::{Handle, Issued};
use crate::tables::{BoxTables, Out};
use std::collections::HashMap;

pub struct BoxRound<'a> {
    pub rng: Rng,
    pub ground: Ground,
    tables: BoxTables,
    before: BoxTables,
    pub reading: Boxes,
    old: OldBoxes,
    /// The data that each handle was given with, since the last `clear`.
    given: HashMap<(u32, u32), u32>,
    issued: Issued,
    next: u32,
    pub log: &'a mut Log,
}

impl<'a> BoxRound<'a> {
    /// Builds a grid; wrong lengths and sizes are tried before.
    pub fn new(mut rng: Rng, ground: Ground, n: usize, pool: usize, log: &'a mut Log) -> Self {
        let mut tables = BoxTables::new(n, pool);
        refused_builds(&mut tables, ground.size, &mut rng, log);
        let before = tables.clone();
        let answer = tables.call_new(ground.size);
        log.call("boxes new", answer);
        log.hold(answer == DONE, || format!("new({}) of {n} slots, pool {pool} gave {answer}", ground.size));
        let kept = tables.reals == before.reals && tables.pool == before.pool;
        log.hold(kept, || "new wrote a table that it has not to write".to_string());
        let reading = Boxes::new(n, pool, ground.size);
        log.hold(read_boxes(&tables).as_ref() == Ok(&reading), || format!("new gave {:?}", read_boxes(&tables)));
        let before = tables.clone();
        let old = OldBoxes::new(ground.size);
        let issued = Issued::of(&reading.slots);
        let mut round = BoxRound { rng, ground, tables, before, reading, old, given: HashMap::new(), issued, next: 0, log };
        if round.rng.once_in(3) {
            age(&mut round.reading.slots, &mut round.tables.nums, &mut round.tables.map, &mut round.rng);
            round.issued = Issued::of(&round.reading.slots);
            round.before.copy_from(&round.tables);
        }
        round
    }

    /// What stands in the tables after a call: all as before, or a grid that is the reading's.
    fn after(&mut self, changed: bool) {
        if !changed {
            self.log.hold(self.tables == self.before, || "a refused or reading call changed a table".to_string());
            return;
        }
        if self.reading.used() <= 400 || self.rng.once_in(16) {
            self.log.hold(self.tables.kept_idle_rows(&self.before), || "a row that is not in use was changed".to_string());
            let held = read_boxes(&self.tables);
            self.log.hold(held.as_ref() == Ok(&self.reading), || match held {
                Err(why) => format!("the tables hold no grid: {why}"),
                Ok(_) => "the tables hold another grid than document 01 says".to_string(),
            });
            for (_, object) in self.reading.slots.objects() {
                let old = self.old.get(object.data);
                self.log.hold(old == Some((object.aabb, object.data)), || format!("record of {}: the original has {old:?}", object.data));
            }
        }
        self.before.copy_from(&self.tables);
    }

    /// A handle that is not good was refused by the number that its history says, and is lost to the original too.
    fn lost(&mut self, h: Handle, answer: u32) {
        let why = self.issued.why_not(h);
        self.log.hold(answer == why, || format!("{h:?} got {answer}, by what was given out it is {why}"));
        if let Some(data) = self.given.get(&(h.slot, h.version)).copied() {
            let none = self.old.get(data).is_none() && self.old.remove(data).is_none();
            self.log.hold(none, || format!("{h:?} is lost, but the original has {data}"));
        }
    }

    pub fn insert(&mut self, aabb: Aabb) {
        let data = data(&mut self.next);
        let (answer, h) = self.reading.insert(aabb, data);
        let got = self.tables.call_insert(aabb, data);
        self.log.call("boxes insert", got.answer);
        let wanted = Inserted { answer, slot: h.slot, version: h.version };
        self.log.hold(got == wanted, || format!("insert({aabb:?}) gave {got:?}, 01 says {wanted:?}"));
        if answer == DONE {
            self.log.note("slots used again", u64::from(h.version > 1));
            self.log.note("boxes of several cells", u64::from(aabb.range(self.ground.size).count() > 1));
            self.old.insert(aabb, data);
            self.given.insert((h.slot, h.version), data);
            self.issued.give(h);
        }
        self.after(answer == DONE);
    }

    pub fn set_aabb(&mut self, h: Handle, aabb: Aabb) {
        self.log.note(self.reading.slots.kind(h), 1);
        let answer = self.reading.set_aabb(h, aabb);
        let got = self.tables.call_set_aabb(h, aabb);
        self.log.call("boxes set_aabb", got);
        self.log.hold(got == answer, || format!("set_aabb({h:?}, {aabb:?}) gave {got}, 01 says {answer}"));
        match answer {
            DONE => self.old.set_aabb(self.reading.get(h).2, aabb),
            NEVER_ISSUED | GONE => self.lost(h, got),
            _ => (),
        }
        self.after(answer == DONE);
    }

    pub fn remove(&mut self, h: Handle) {
        self.log.note(self.reading.slots.kind(h), 1);
        let (answer, data) = self.reading.remove(h);
        let got = self.tables.call_remove(h);
        self.log.call("boxes remove", got.answer);
        let wanted = Reply { answer, obj: data };
        self.log.hold(got == wanted, || format!("remove({h:?}) gave {got:?}, 01 says {wanted:?}"));
        if answer == DONE {
            let old = self.old.remove(data);
            self.log.hold(old == Some(got.obj), || format!("remove({h:?}) gave {got:?}, the original {old:?}"));
        } else {
            self.lost(h, got.answer);
        }
        self.after(answer == DONE);
    }

    pub fn get(&mut self, h: Handle) {
        self.log.note(self.reading.slots.kind(h), 1);
        let (answer, aabb, data) = self.reading.get(h);
        let got = self.tables.call_get(h);
        self.log.call("boxes get", got.answer);
        let given = Aabb { ll: Spot::new(got.left, got.low), ur: Spot::new(got.right, got.high) };
        let same = got.answer == answer && given == aabb && got.obj == data;
        self.log.hold(same, || format!("get({h:?}) gave {got:?}, 01 says {answer}, {aabb:?}, {data}"));
        if answer == DONE {
            let old = self.old.get(data);
            self.log.hold(old == Some((given, got.obj)), || format!("get({h:?}) gave {got:?}, the original {old:?}"));
        } else {
            self.lost(h, got.answer);
        }
        self.after(false);
    }

    pub fn count(&mut self) {
        let got = self.tables.call_len();
        self.log.call("boxes len", got.answer);
        let old = self.old.grid.len() as u32;
        let wanted = Count { answer: DONE, count: self.reading.slots.len() as u32 };
        self.log.hold(got == wanted && old == got.count, || format!("len gave {got:?}, 01 says {wanted:?}, the original {old}"));
        self.after(false);
    }

    /// Handles of objects held to the reading with their order, and to the original by data number and without order.
    fn listed(&mut self, name: &'static str, got: Count, wanted: Filled<Handle>, old: Vec<u32>, out: Out<2>) {
        self.log.call(name, got.answer);
        let same = u64::from(got.count) == wanted.count && got.answer == wanted.answer;
        let filled = out.holds(wanted.out.iter().map(|h| [h.slot, h.version]));
        self.log.hold(same && filled, || format!("{name} gave {got:?}, 01 says {} {}", wanted.answer, wanted.count));
        if got.answer == DONE || got.answer == OUTPUT {
            self.log.hold(got.count as usize == old.len(), || format!("{name} found {}, the original {}", got.count, old.len()));
        }
        if got.answer == DONE {
            let rows = out.rows(got.count as usize);
            let mut data: Vec<u32> = rows.iter().map(|r| self.given.get(&(r[0], r[1])).copied().unwrap_or(0)).collect();
            let mut old = old;
            data.sort_unstable();
            old.sort_unstable();
            self.log.hold(data == old, || format!("{name} gave {data:?}, the original {old:?}"));
        }
        self.after(false);
    }

    pub fn handles(&mut self) {
        let places = places(self.reading.slots.len(), &mut self.rng);
        let wanted = self.reading.handles(places);
        let mut out = Out::new(places);
        let got = self.tables.call_handles(&mut out);
        let old = self.old.all();
        self.listed("boxes handles", got, wanted, old, out);
    }

    pub fn query_broad(&mut self, q: Aabb) {
        let all = self.reading.query_broad(q, usize::MAX);
        let places = places(all.out.len(), &mut self.rng);
        let accepted = all.answer == DONE;
        let wanted = if accepted { Filled::fitted(all.out, places) } else { all };
        let mut out = Out::new(places);
        let got = self.tables.call_query_broad(q, &mut out);
        let old = if accepted { self.old.query_broad(q) } else { vec![] };
        self.listed("boxes query_broad", got, wanted, old, out);
    }

    pub fn clear(&mut self) {
        let needed = self.reading.slots.len();
        let (places, more) = (places(needed, &mut self.rng), places(needed, &mut self.rng));
        let wanted = self.reading.clear(places.min(more));
        let (mut boxes, mut objs) = (Out::new(places), Out::new(more));
        let got = self.tables.call_clear(&mut boxes, &mut objs);
        self.log.call("boxes clear", got.answer);
        let same = u64::from(got.count) == wanted.count && got.answer == wanted.answer;
        let filled = boxes.holds(wanted.out.iter().map(|(b, _)| b.bits())) && objs.holds(wanted.out.iter().map(|(_, d)| [*d]));
        self.log.hold(same && filled, || format!("clear gave {got:?}, 01 says {} {}", wanted.answer, wanted.count));
        if wanted.answer == DONE {
            let rows = boxes.rows(got.count as usize).iter().zip(objs.rows(got.count as usize));
            let mut all: Vec<_> = rows.map(|(aabb, data)| (data[0], *aabb)).collect();
            all.sort_unstable();
            let old = self.old.clear();
            self.log.hold(all == old, || format!("clear gave {all:?}, the original {old:?}"));
            self.given.clear();
        }
        self.after(wanted.answer == DONE);
    }

    pub fn query(&mut self, q: Aabb) {
        let all = self.reading.query(q, usize::MAX);
        let needed = all.out.len();
        let lens = [places(needed, &mut self.rng), places(needed, &mut self.rng), places(needed, &mut self.rng)];
        let accepted = all.answer == DONE;
        let wanted = if accepted { Filled::fitted(all.out, *lens.iter().min().unwrap()) } else { all };
        let (mut found, mut boxes, mut objs) = (Out::new(lens[0]), Out::new(lens[1]), Out::new(lens[2]));
        let got = self.tables.call_query(q, &mut found, &mut boxes, &mut objs);
        self.log.call("boxes query", got.answer);
        let same = u64::from(got.count) == wanted.count && got.answer == wanted.answer;
        self.log.hold(same, || format!("query({q:?}) gave {got:?}, 01 says {} {}", wanted.answer, wanted.count));
        let filled = found.holds(wanted.out.iter().map(|f| [f.handle.slot, f.handle.version]))
            && boxes.holds(wanted.out.iter().map(|f| f.aabb.bits()))
            && objs.holds(wanted.out.iter().map(|f| [f.data]));
        self.log.hold(filled, || format!("query({q:?}) filled its outputs otherwise than 01 says: {:?}", wanted.out));
        let mut old = if accepted { self.old.query(q) } else { vec![] };
        if got.answer == DONE || got.answer == OUTPUT {
            self.log.hold(got.count as usize == old.len(), || format!("query({q:?}) found {}, the original {}", got.count, old.len()));
        }
        if got.answer == DONE {
            let count = got.count as usize;
            self.log.note("queries that found something", u64::from(count > 0));
            self.log.note("findings", count as u64);
            let mut all: Vec<_> = objs.rows(count).iter().zip(boxes.rows(count)).map(|(d, b)| (d[0], *b)).collect();
            all.sort_unstable();
            old.sort_unstable();
            self.log.hold(all == old, || format!("query({q:?}) gave {all:?}, the original {old:?}"));
        }
        self.after(false);
    }

    pub fn tables(&self) -> &BoxTables {
        &self.tables
    }

    /// The tables, and the original in the same state.
    pub fn state(&self) -> (BoxTables, OldBoxes) {
        (self.tables.clone(), self.old.clone())
    }
}

/// Building with wrong lengths (3) and with sizes outside their limits (2), which leave all as it was.
fn refused_builds(tables: &mut BoxTables, size: u32, rng: &mut Rng, log: &mut Log) {
    let mut wrong = tables.clone();
    match rng.below(4) {
        0 => drop(wrong.nums.pop()),
        1 => drop(wrong.reals.pop()),
        2 => wrong.map.push(0),
        _ => wrong.pool = vec![[0, 0]; rng.pick(&[0, 8_193])],
    }
    let before = wrong.clone();
    let got = wrong.call_new(size);
    log.call("boxes new", got);
    log.hold(got == TABLES && wrong == before, || format!("new with a wrong length gave {got}"));
    let before = tables.clone();
    let wrong = rng.pick(&[0, 1_048_577, u32::MAX, 1 << 31]);
    let got = tables.call_new(wrong);
    log.call("boxes new", got);
    log.hold(got == SIZE && *tables == before, || format!("new({wrong}) gave {got}"));
}
