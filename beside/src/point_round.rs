//! A round of calls on a point grid: the port, the original and the reading of document 01 are given the same calls, and held to each other.
use crate::holds::read_points;
use crate::log::Log;
use crate::original::OldPoints;
use crate::picks::{age, data, merge, places};
use crate::places::{sent_kind, Ground};
use crate::point_reading::{nearest_words, Deferred, Filled, Finding, Points, State};
use crate::port::{BatchLists, BatchReply, Corners, Count, Inserted, Maintained, Reply};
use crate::random::Rng;
use crate::rules::*;
use crate::slots::{Handle, Issued};
use crate::tables::{Out, Outs, PointTables};
use std::collections::{HashMap, HashSet};

pub struct PointRound<'a> {
    pub rng: Rng,
    pub ground: Ground,
    tables: PointTables,
    before: PointTables,
    pub reading: Points,
    old: OldPoints,
    /// The data and the tracker that each handle was given with, since the last `clear`.
    given: HashMap<(u32, u32), [u32; 2]>,
    issued: Issued,
    /// The handle that the port gave with each data number, since the last `clear`.
    handles: HashMap<u32, Handle>,
    /// The handles that were sent elsewhere since the last `maintain`, wherever they were sent after that.
    away: HashSet<(u32, u32)>,
    next: u32,
    pub log: &'a mut Log,
}

impl<'a> PointRound<'a> {
    /// Builds a grid; wrong lengths and sizes are tried before.
    pub fn new(mut rng: Rng, ground: Ground, n: usize, log: &'a mut Log) -> Self {
        let mut tables = PointTables::new(n);
        refused_builds(&mut tables, ground.size, &mut rng, log);
        let before = tables.clone();
        let answer = tables.call_new(ground.size);
        log.call("points new", answer);
        log.hold(answer == DONE, || format!("new({}) of {n} slots gave {answer}", ground.size));
        let others = PointTables { nums: before.nums.clone(), map: before.map.clone(), ..tables.clone() };
        log.hold(others == before, || "new wrote a table that it has not to write".to_string());
        let reading = Points::new(n, ground.size);
        log.hold(read_points(&tables).as_ref() == Ok(&reading), || format!("new gave {:?}", read_points(&tables)));
        let before = tables.clone();
        let old = OldPoints::new(ground.size);
        let (given, handles, issued, away) = (HashMap::new(), HashMap::new(), Issued::of(&reading.slots), HashSet::new());
        let mut round = PointRound { rng, ground, tables, before, reading, old, given, issued, handles, away, next: 0, log };
        if round.rng.once_in(3) {
            age(&mut round.reading.slots, &mut round.tables.nums, &mut round.tables.map, &mut round.rng);
            round.issued = Issued::of(&round.reading.slots);
            round.before.copy_from(&round.tables);
        }
        round
    }

    /// What stands in the tables after a call: all as before, or a grid that is the reading's.
    fn after(&mut self, changed: bool, whole: bool) {
        if !changed {
            self.log.hold(self.tables == self.before, || "a refused or reading call changed a table".to_string());
            return;
        }
        let small = self.tables.nums.len() <= 96;
        if small || whole || self.rng.once_in(64) {
            self.log.hold(self.tables.kept_idle_rows(&self.before), || "a row that is not in use was changed".to_string());
            let held = read_points(&self.tables);
            self.log.hold(held.as_ref() == Ok(&self.reading), || match held {
                Err(why) => format!("the tables hold no grid: {why}"),
                Ok(_) => "the tables hold another grid than document 01 says".to_string(),
            });
            for (_, object) in self.reading.slots.objects() {
                let old = self.old.get(object.data);
                self.log.hold(old == Some((object.at, object.data)), || format!("record of {}: the original has {old:?}", object.data));
            }
        }
        self.before.copy_from(&self.tables);
    }

    /// A handle that is not good was refused by the number that its history says, and is lost to the original too.
    fn lost(&mut self, h: Handle, answer: u32) {
        let why = self.issued.why_not(h);
        self.log.hold(answer == why, || format!("{h:?} got {answer}, by what was given out it is {why}"));
        if let Some([data, _]) = self.given_with(h) {
            let none = self.old.get(data).is_none() && self.old.remove(data).is_none() && self.old.remove_maintain(data).is_none();
            self.log.hold(none, || format!("{h:?} is lost, but the original has {data}"));
        }
    }

    /// The data and the tracker that a handle was given with.
    fn given_with(&self, h: Handle) -> Option<[u32; 2]> {
        self.given.get(&(h.slot, h.version)).copied()
    }

    /// The data, and beside it the tracker that the object with this data was given with.
    fn with_tracker(&self, data: u32) -> [u32; 2] {
        self.handles.get(&data).and_then(|h| self.given_with(*h)).unwrap_or([data, u32::MAX])
    }

    /// What a call got that names a handle and a tracker, read a second time: by what the grid has given out, and whom for.
    fn by_history(&mut self, h: Handle, tracker: u32, answer: u32) {
        let whose = self.given_with(h).map(|given| given[1]);
        let (right, kind) = match answer {
            DONE | MARKED => (whose == Some(tracker), "trackers: the point's own"),
            OTHER_TRACKER => (whose.map_or(false, |own| own != tracker), "trackers: another's"),
            NO_TRACKER => (tracker > LAST_TRACKER, "trackers: above 7"),
            NEVER_ISSUED | GONE => (tracker <= LAST_TRACKER, "trackers: of a lost handle"),
            _ => return,
        };
        self.log.note(kind, 1);
        self.log.hold(right, || format!("tracker {tracker} got {answer} for {h:?}, which was given to {whose:?}"));
        if answer == NEVER_ISSUED || answer == GONE {
            self.lost(h, answer);
        }
    }

    pub fn insert(&mut self, at: Spot, tracker: u32) {
        let data = data(&mut self.next);
        let (answer, h) = self.reading.insert(at, data, tracker);
        let got = self.tables.call_insert(at, data, tracker);
        self.log.call("points insert", got.answer);
        let wanted = Inserted { answer, slot: h.slot, version: h.version };
        self.log.hold(got == wanted, || format!("insert({at:?}) for {tracker} gave {got:?}, 01 says {wanted:?}"));
        if answer == DONE {
            self.log.note("slots used again", u64::from(h.version > 1));
            self.old.insert(at, data);
            self.given.insert((h.slot, h.version), [data, tracker]);
            self.issued.give(h);
            self.handles.insert(data, Handle { slot: got.slot, version: got.version });
        }
        self.after(answer == DONE, false);
    }

    pub fn set_position(&mut self, h: Handle, at: Spot, tracker: u32) {
        self.log.note(self.reading.slots.kind(h), 1);
        let answer = self.reading.set_position(h, at, tracker);
        let got = self.tables.call_set_position(h, at, tracker);
        self.log.call("points set_position", got);
        self.log.hold(got == answer, || format!("set_position({h:?}, {at:?}) by {tracker} gave {got}, 01 says {answer}"));
        match answer {
            DONE => self.sent(h, at),
            // On a marked object the Rust's call does nothing.
            MARKED => self.old.set_position(self.reading.get(h).2, at),
            _ => (),
        }
        self.by_history(h, tracker, got);
        self.after(answer == DONE, false);
    }

    /// An accepted position: the original gets it too, and it is kept which objects were sent elsewhere.
    fn sent(&mut self, h: Handle, to: Spot) {
        let (_, at, data, _) = self.reading.get(h);
        self.old.set_position(data, to);
        if to.elsewhere(at) {
            self.away.insert((h.slot, h.version));
        }
    }

    pub fn remove(&mut self, h: Handle, tracker: u32, now: bool) {
        self.log.note(self.reading.slots.kind(h), 1);
        let (answer, data) = if now { self.reading.remove_maintain(h, tracker) } else { self.reading.remove(h, tracker) };
        let got = if now { self.tables.call_remove_maintain(h, tracker) } else { self.tables.call_remove(h, tracker) };
        self.log.call(if now { "points remove_maintain" } else { "points remove" }, got.answer);
        let wanted = Reply { answer, obj: data };
        self.log.hold(got == wanted, || format!("remove({h:?}) by {tracker} gave {got:?}, 01 says {wanted:?}"));
        if answer == DONE {
            let old = if now { self.old.remove_maintain(data) } else { self.old.remove(data) };
            self.log.hold(old == Some(got.obj), || format!("remove({h:?}) gave {got:?}, the original {old:?}"));
        }
        self.by_history(h, tracker, got.answer);
        self.after(answer == DONE, false);
    }

    pub fn batch(&mut self, calls: &[Deferred], uneven: bool) {
        let places = places(calls.len(), &mut self.rng);
        let mut lists = BatchLists::of(calls);
        if uneven {
            lists.uneven(&mut self.rng);
        }
        let wanted = if uneven { Filled::refused(TABLES) } else { self.reading.batch(calls, places) };
        let mut out = Out::new(places);
        let got = self.tables.call_batch(&lists, &mut out);
        self.log.call("points batch", got.answer);
        let reply = BatchReply { answer: wanted.answer, count: wanted.count };
        self.log.hold(got == reply, || format!("batch of {} gave {got:?}, 01 says {reply:?}", calls.len()));
        let filled = out.holds(wanted.out.iter().copied());
        self.log.hold(filled, || format!("batch filled its output otherwise than 01 says: {calls:?}"));
        if wanted.answer == DONE {
            self.merged(calls, &wanted.out);
        }
        for (call, [answer, data]) in calls.iter().zip(&wanted.out) {
            self.log.note("deferred calls inside batches", 1);
            self.log.note(self.reading.slots.kind(call.handle), 1);
            if *answer == DONE && call.kind == 0 {
                let rests = !call.at.elsewhere(self.reading.get(call.handle).1);
                self.log.note("positions inside batches that are the recorded ones by number", u64::from(rests));
                self.sent(call.handle, call.at);
            } else if *answer == DONE {
                let old = self.old.remove(*data);
                self.log.hold(old == Some(*data), || format!("remove in a batch: the original gave {old:?}"));
            }
            self.by_history(call.handle, call.tracker, *answer);
        }
        self.after(wanted.answer == DONE, calls.len() > 64);
    }

    /// Demand 3 as Req 07 reads it, of the port alone: the calls of a batch merged otherwise, each tracker's in its own order, get the same rows and leave the
    /// same tables.
    fn merged(&mut self, calls: &[Deferred], rows: &[[u32; 2]]) {
        let order = merge(&calls.iter().map(|c| c.tracker).collect::<Vec<_>>(), &mut self.rng);
        let (mut tables, mut out) = (self.before.clone(), Out::new(calls.len()));
        let got = tables.call_batch(&BatchLists::of(&order.iter().map(|i| calls[*i]).collect::<Vec<_>>()), &mut out);
        self.log.call("points batch", got.answer);
        self.log.note("batches merged otherwise", u64::from(order.windows(2).any(|two| two[0] > two[1])));
        let same = got.answer == DONE && out.holds(order.iter().map(|i| rows[*i]));
        self.log.hold(same, || format!("a batch merged otherwise, {order:?}, gave {got:?} and other rows: {calls:?}"));
        self.log.hold(tables == self.tables, || format!("a batch merged otherwise, {order:?}, left other tables: {calls:?}"));
    }

    /// Both counts are held to the original's own positions, too.
    pub fn maintain(&mut self) {
        self.met_moves();
        let (moved, removed) = self.reading.maintain();
        let got = self.tables.call_maintain();
        self.log.call("points maintain", got.answer);
        let wanted = Maintained { answer: DONE, moved, removed };
        self.log.hold(got == wanted, || format!("maintain gave {got:?}, 01 with Req 06 says {wanted:?}"));
        self.log.note("objects moved by maintain", moved.into());
        self.log.note("objects removed by maintain", removed.into());
        let (shifted, gone) = self.old.maintain();
        self.log.hold(shifted == got.moved, || format!("maintain moved {}, the original {shifted} by its positions", got.moved));
        self.log.hold(gone == got.removed, || format!("maintain removed {}, the original {gone}", got.removed));
        self.after(true, true);
    }

    /// What `maintain` is about to settle: new positions by kind, and what became of objects that were sent elsewhere.
    fn met_moves(&mut self) {
        for (h, object) in self.reading.slots.objects() {
            let away = self.away.contains(&(h.slot, h.version));
            match object.state {
                State::Unchanged => (),
                State::Removed => self.log.note("sent: elsewhere and then removed", u64::from(away)),
                State::NewPos(to) | State::Relocate(to, _) => {
                    self.log.note(sent_kind(object.at, to), 1);
                    self.log.note("sent: elsewhere and back", u64::from(away && !to.elsewhere(object.at)));
                }
            }
        }
        self.away.clear();
    }

    pub fn get(&mut self, h: Handle) {
        self.log.note(self.reading.slots.kind(h), 1);
        let (answer, at, data, tracker) = self.reading.get(h);
        let got = self.tables.call_get(h);
        self.log.call("points get", got.answer);
        let same = got.answer == answer && Spot::new(got.x, got.y) == at && [got.obj, got.tracker] == [data, tracker];
        self.log.hold(same, || format!("get({h:?}) gave {got:?}, 01 says {answer}, {at:?}, {data}, {tracker}"));
        if answer == DONE {
            let old = self.old.get(data);
            self.log.hold(old == Some((Spot::new(got.x, got.y), got.obj)), || format!("get({h:?}) gave {got:?}, the original {old:?}"));
            let given = self.given_with(h);
            self.log.hold(given == Some([got.obj, got.tracker]), || format!("get({h:?}) gave {got:?}, it was given with {given:?}"));
        } else {
            self.lost(h, got.answer);
        }
        self.after(false, false);
    }

    pub fn count(&mut self) {
        let got = self.tables.call_len();
        self.log.call("points len", got.answer);
        let old = self.old.grid.len() as u32;
        let wanted = Count { answer: DONE, count: self.reading.slots.len() as u32 };
        self.log.hold(got == wanted && old == got.count, || format!("len gave {got:?}, 01 says {wanted:?}, the original {old}"));
        self.after(false, false);
    }

    pub fn handles(&mut self) {
        let places = places(self.reading.slots.len(), &mut self.rng);
        let wanted = self.reading.handles(places);
        let mut out = Out::new(places);
        let got = self.tables.call_handles(&mut out);
        self.log.call("points handles", got.answer);
        let same = u64::from(got.count) == wanted.count && got.answer == wanted.answer;
        let filled = out.holds(wanted.out.iter().map(|h| [h.slot, h.version]));
        self.log.hold(same && filled, || format!("handles gave {got:?}, 01 says {} {}", wanted.answer, wanted.count));
        if got.answer == DONE {
            let rows = out.rows(got.count as usize).iter();
            let mut data: Vec<u32> = rows.filter_map(|r| self.given.get(&(r[0], r[1]))).map(|given| given[0]).collect();
            data.sort_unstable();
            self.log.hold(data == self.old.all(), || "handles gave other objects than the original".to_string());
        }
        self.after(false, false);
    }

    pub fn clear(&mut self) {
        let needed = self.reading.slots.len();
        let (places, more) = (places(needed, &mut self.rng), places(needed, &mut self.rng));
        let wanted = self.reading.clear(places.min(more));
        let (mut spots, mut objs) = (Out::new(places), Out::new(more));
        let got = self.tables.call_clear(&mut spots, &mut objs);
        self.log.call("points clear", got.answer);
        let same = u64::from(got.count) == wanted.count && got.answer == wanted.answer;
        let filled = spots.holds(wanted.out.iter().map(|(at, _)| at.bits())) && objs.holds(wanted.out.iter().map(|(_, data)| *data));
        self.log.hold(same && filled, || format!("clear gave {got:?}, 01 says {} {}", wanted.answer, wanted.count));
        if wanted.answer == DONE {
            let rows = spots.rows(got.count as usize).iter().zip(objs.rows(got.count as usize));
            let mut all: Vec<_> = rows.map(|(at, data)| (*data, *at)).collect();
            all.sort_unstable();
            let old: Vec<_> = self.old.clear().into_iter().map(|(data, at)| (self.with_tracker(data), at)).collect();
            self.log.hold(all == old, || format!("clear gave {all:?}, the original {old:?}"));
            self.given.clear();
            self.handles.clear();
        }
        self.after(wanted.answer == DONE, true);
    }

    /// Places of a query's three outputs: each by itself; or for every slot, since the port writes then as it walks and else collects first.
    fn lens(&mut self, needed: usize) -> [usize; 3] {
        let n = self.tables.nums.len();
        let mut lens = [places(needed, &mut self.rng), places(needed, &mut self.rng), places(needed, &mut self.rng)];
        if self.rng.once_in(4) {
            lens = [n; 3];
        }
        let short = lens.map(|places| places < needed);
        self.log.note("queries with a place for every slot", u64::from(lens == [n; 3]));
        self.log.note("queries with too few places for the data alone", u64::from(short == [false, false, true]));
        lens
    }

    /// A query's answer held to document 01 with its order, and to the original by data number and without order.
    fn found(&mut self, name: &'static str, got: Count, wanted: Filled<Finding>, old: Vec<(u32, [u32; 2])>, outs: Outs) {
        self.log.call(name, got.answer);
        let same = u64::from(got.count) == wanted.count && got.answer == wanted.answer;
        self.log.hold(same, || format!("{name} gave {got:?}, 01 says {} {}", wanted.answer, wanted.count));
        let filled = outs.found.holds(wanted.out.iter().map(|f| [f.handle.slot, f.handle.version]))
            && outs.spots.holds(wanted.out.iter().map(|f| f.at.bits()))
            && outs.objs.holds(wanted.out.iter().map(|f| [f.data, f.tracker]));
        self.log.hold(filled, || format!("{name} filled its outputs otherwise than 01 says: {:?}", wanted.out));
        if got.answer == DONE || got.answer == OUTPUT {
            self.log.hold(got.count as usize == old.len(), || format!("{name} found {}, the original {}", got.count, old.len()));
        }
        if got.answer == DONE {
            let count = got.count as usize;
            self.log.note("queries that found something", u64::from(count > 0));
            self.log.note("findings", count as u64);
            // The data that is written, and beside it the data that the handle was given with: the original's own, both of them, with the tracker of that data.
            let rows = outs.objs.rows(count).iter().zip(outs.spots.rows(count)).zip(outs.found.rows(count));
            let mut all: Vec<_> = rows.map(|((data, at), h)| (*data, *at, self.given.get(&(h[0], h[1])).copied())).collect();
            let mut old: Vec<_> = old.into_iter().map(|(data, at)| (self.with_tracker(data), at, Some(self.with_tracker(data)))).collect();
            all.sort_unstable();
            old.sort_unstable();
            self.log.hold(all == old, || format!("{name} gave {all:?}, the original {old:?}"));
        }
        self.after(false, false);
    }

    pub fn query(&mut self, kind: Corners, ll: Spot, ur: Spot) {
        let sorted = kind == Corners::Sorted;
        let all = if sorted { self.reading.query_aabb(ll, ur, usize::MAX) } else { self.reading.query(ll, ur, usize::MAX) };
        let lens = self.lens(all.out.len());
        let accepted = all.answer == DONE;
        let wanted = if accepted { Filled::fitted(all.out, Outs::room(&lens)) } else { all };
        let mut outs = Outs::new(lens);
        let got = self.tables.call_query(kind, ll, ur, &mut outs);
        let old = match (accepted, kind) {
            (false, _) => vec![],
            (true, Corners::Cells) => self.old.query(ll, ur),
            (true, Corners::Sorted) => self.old.query_aabb(ll, ur),
        };
        self.found(if sorted { "points query_aabb" } else { "points query" }, got, wanted, old, outs);
    }

    pub fn query_around(&mut self, centre: Spot, r: f32) {
        let all = self.reading.query_around(centre, r, usize::MAX);
        let lens = self.lens(all.out.len());
        let accepted = all.answer == DONE;
        let wanted = if accepted { Filled::fitted(all.out, Outs::room(&lens)) } else { all };
        let mut outs = Outs::new(lens);
        let got = self.tables.call_query_around(centre, r, &mut outs);
        let old = if accepted { self.old.query_around(centre, r) } else { vec![] };
        self.found("points query_around", got, wanted, old, outs);
    }

    /// The nearest of a circle, held to the scan of the reading, and to the nearest of what the original's circle reports.
    pub fn nearest(&mut self, centre: Spot, r: f32) {
        let (answer, found) = self.reading.nearest(centre, r);
        let got = self.tables.call_nearest(centre, r);
        self.log.call("points nearest", got.answer);
        let wanted = nearest_words(found);
        let same = got.answer == answer && got.words() == wanted;
        self.log.hold(same, || format!("nearest({centre:?}, {r:?}) gave {got:?}, Req 02 says {answer}, {wanted:?}"));
        if answer == DONE {
            let old = self.old.nearest(centre, r, |data| self.handles[&data].slot);
            let tracker = |data: u32| self.with_tracker(data)[1];
            let old = old.map(|(data, at)| Finding { handle: self.handles[&data], at: Spot::of_bits(at), data, tracker: tracker(data) });
            let old = nearest_words(old);
            self.log.hold(got.words() == old, || format!("nearest({centre:?}, {r:?}) gave {got:?}, the original's circle {old:?}"));
            self.met_nearest(centre, r, found);
        }
        self.after(false, false);
    }

    /// What a call of `nearest` met: none, one of another cell than the centre's, equally near ones, and such of which the circle reports another first.
    fn met_nearest(&mut self, centre: Spot, r: f32, found: Option<Finding>) {
        let size = self.ground.size;
        let near = |at: Spot| (at.x - centre.x) * (at.x - centre.x) + (at.y - centre.y) * (at.y - centre.y);
        match found {
            None => self.log.note("nearest: none", 1),
            Some(f) => {
                let circle = self.reading.query_around(centre, r, usize::MAX);
                let equal: Vec<_> = circle.out.iter().filter(|o| near(o.at) == near(f.at)).collect();
                self.log.hold(circle.out.contains(&f), || format!("{f:?} is the nearest of a scan, and no finding of the circle"));
                self.log.note("nearest: one", 1);
                self.log.note("nearest: of another cell", u64::from(f.at.cell(size) != centre.cell(size)));
                self.log.note("nearest: of equally near ones", u64::from(equal.len() > 1));
                self.log.note("nearest: of such in several cells", u64::from(equal.iter().any(|o| o.at.cell(size) != f.at.cell(size))));
                self.log.note("nearest: of such and not the first found", u64::from(equal.first() != Some(&&f)));
            }
        }
    }

    pub fn tables(&self) -> &PointTables {
        &self.tables
    }

    /// The tables, and the original in the same state.
    pub fn state(&self) -> (PointTables, OldPoints) {
        (self.tables.clone(), self.old.clone())
    }
}

/// Building with wrong lengths (3) and with sizes outside their limits (2), which leave all as it was.
fn refused_builds(tables: &mut PointTables, size: u32, rng: &mut Rng, log: &mut Log) {
    let mut short = tables.clone();
    match rng.below(7) {
        0 => drop(short.nums.pop()),
        1 => drop(short.reals.pop()),
        2 => drop(short.ints.pop()),
        3 => drop(short.map.pop()),
        4 => drop(short.pool.pop()),
        5 => drop(short.spots.pop()),
        _ => short.cells.push([0, 0]),
    }
    let before = short.clone();
    // The map is as long for one slot fewer, but no other table is.
    let got = short.call_new(size);
    log.call("points new", got);
    log.hold(got == TABLES && short == before, || format!("new with a wrong length gave {got}"));
    let before = tables.clone();
    let wrong = rng.pick(&[0, 1_048_577, u32::MAX, 1 << 31]);
    let got = tables.call_new(wrong);
    log.call("points new", got);
    log.hold(got == SIZE && *tables == before, || format!("new({wrong}) gave {got}"));
}
