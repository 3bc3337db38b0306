//! Which calls a round on a point grid makes: any of them in any order, frames as a desk makes them, states left pending.
use crate::picks::{good, handle, places, tracker};
use crate::places::{at_rest, wild, Ground, Kind};
use crate::point_calls::PointCall;
use crate::point_reading::Deferred;
use crate::point_round::PointRound;
use crate::port::Corners;
use crate::random::Rng;
use crate::rules::{Spot, EDGE, LAST_TRACKER};
use crate::slots::Handle;

impl PointRound<'_> {
    /// The position of some object, or any.
    fn some_spot(&mut self) -> Spot {
        match good(&self.reading.slots, &mut self.rng) {
            Some(h) if !self.rng.once_in(8) => self.reading.slots.get(h).unwrap().at,
            _ => self.ground.spot(&mut self.rng),
        }
    }

    fn any_query(&mut self) {
        let from = self.some_spot();
        let mut centre = self.ground.spot_by(from, &mut self.rng);
        if self.rng.once_in(60) {
            centre = self.ground.any_spot(&mut self.rng);
        }
        let across = Spot::new(self.ground.across(centre.x, &mut self.rng), self.ground.across(centre.y, &mut self.rng));
        let (ll, ur) = match self.rng.below(8) {
            0 => (across, centre),
            1 => (Spot::new(across.x, centre.y), Spot::new(centre.x, across.y)),
            2 => (centre, self.some_spot()),
            _ => (centre, across),
        };
        match self.rng.below(3) {
            0 => self.query(Corners::Cells, ll, ur),
            1 => self.query(Corners::Sorted, ll, ur),
            _ => {
                let to = self.some_spot();
                let r = self.ground.radius(centre, to, &mut self.rng);
                self.query_around(centre, r);
            }
        }
    }

    /// For `nearest`: a centre on a point, halfway between two, which are then equally near, at the edges of cells, anywhere, or by a point. Its radius is 0,
    /// tiny, just about the distance of a point, some cells, too wide, or outside the domain.
    fn centre_and_radius(&mut self) -> (Spot, f32) {
        let (from, to) = (self.some_spot(), self.some_spot());
        let between = |a: f32, b: f32| ((f64::from(a) + f64::from(b)) / 2.0) as f32;
        let centre = match self.rng.below(8) {
            0 | 1 => from,
            2 | 3 => Spot::new(between(from.x, to.x), between(from.y, to.y)),
            4 => Ground { kind: self.rng.pick(&[Kind::Edges, Kind::Lattice]), ..self.ground }.spot(&mut self.rng),
            5 | 6 => self.ground.any_spot(&mut self.rng),
            _ => self.ground.spot_by(from, &mut self.rng),
        };
        (centre, self.ground.radius(centre, to, &mut self.rng))
    }

    /// The tracker that a call on this handle names: mostly that of the point.
    fn tracker(&mut self, h: Handle) -> u32 {
        let own = self.reading.slots.get(h).map(|object| object.tracker);
        tracker(own, &mut self.rng)
    }

    /// A deferred call of a batch.
    fn deferred(&mut self) -> Deferred {
        let handle = handle(&self.reading.slots, &mut self.rng);
        let tracker = self.tracker(handle);
        let from = self.reading.get(handle).1;
        let at = match self.rng.below(30) {
            0 => self.ground.any_spot(&mut self.rng),
            1..=8 => at_rest(from, &mut self.rng),
            // Two refusals at once: the first in order is said.
            9..=15 if tracker > LAST_TRACKER => Spot::new(from.x, wild(&mut self.rng)),
            _ => self.ground.spot_by(from, &mut self.rng),
        };
        let kind = if self.rng.once_in(6) { self.rng.pick(&[1, 2, u32::MAX]) } else { 0 };
        Deferred { kind, handle, at, tracker }
    }

    /// What now and then follows a deferred call on the same object, of any tracker: the recorded position again, or the removal.
    fn follow(&mut self, call: &Deferred) -> Option<Deferred> {
        let at = at_rest(self.reading.get(call.handle).1, &mut self.rng);
        let tracker = self.tracker(call.handle);
        match self.rng.below(12) {
            0 => Some(Deferred { kind: 0, at, tracker, ..*call }),
            1 => Some(Deferred { kind: 1, tracker, ..*call }),
            _ => None,
        }
    }

    fn any_move(&mut self) {
        let call = self.deferred();
        self.set_position(call.handle, call.at, call.tracker);
        match self.follow(&call) {
            Some(next) if next.kind == 0 => self.set_position(next.handle, next.at, next.tracker),
            Some(next) => self.remove(next.handle, next.tracker, false),
            None => (),
        }
    }

    fn any_batch(&mut self) {
        let mut calls = vec![];
        for _ in 0..self.rng.any_length(64) {
            let call = self.deferred();
            calls.push(call);
            calls.extend(self.follow(&call));
        }
        let uneven = self.rng.once_in(12);
        self.batch(&calls, uneven);
    }

    /// One call, of any kind; after a `set_position` at times a second one.
    pub fn step(&mut self) {
        match self.rng.below(100) {
            0..=21 => {
                let at = self.ground.any_spot(&mut self.rng);
                let tracker = tracker(None, &mut self.rng);
                self.insert(at, tracker);
            }
            22..=43 => self.any_move(),
            44..=49 => {
                let h = handle(&self.reading.slots, &mut self.rng);
                let tracker = self.tracker(h);
                self.remove(h, tracker, false);
            }
            50..=54 => {
                let h = handle(&self.reading.slots, &mut self.rng);
                let tracker = self.tracker(h);
                self.remove(h, tracker, true);
            }
            55..=59 => self.maintain(),
            60..=62 => self.any_batch(),
            63..=67 => {
                let h = handle(&self.reading.slots, &mut self.rng);
                self.get(h);
            }
            68..=69 => self.count(),
            70..=71 => self.handles(),
            72 if self.rng.once_in(6) => self.clear(),
            73..=80 => {
                // More where many are equally near.
                for _ in 0..if self.ground.kind == Kind::Lattice { 6 } else { 1 } {
                    let (centre, r) = self.centre_and_radius();
                    self.nearest(centre, r);
                }
            }
            _ => self.any_query(),
        }
    }

    /// A frame as a desk makes it: of every point its tracker sends a position, a little away or at rest, a few leave, some calls go astray, the grid is
    /// maintained, circles are asked for, new points come.
    pub fn frame(&mut self) {
        let handles: Vec<Handle> = self.reading.slots.objects().map(|(h, _)| h).collect();
        let stride = f64::from(self.ground.size) * self.rng.pick(&[0.05, 0.5, 2.0]);
        let mut calls = vec![];
        for handle in handles {
            let (_, at, _, own) = self.reading.get(handle);
            let step = |c: f32, rng: &mut Rng| ((f64::from(c) + (rng.unit() - 0.5) * stride) as f32).clamp(-EDGE, EDGE);
            let at = match self.rng.below(3) {
                0 => at_rest(at, &mut self.rng),
                _ => Spot::new(step(at.x, &mut self.rng), step(at.y, &mut self.rng)),
            };
            let tracker = if self.rng.once_in(20) { self.tracker(handle) } else { own };
            calls.push(Deferred { kind: u32::from(self.rng.once_in(50)), handle, at, tracker });
        }
        if self.rng.once_in(4) {
            for call in calls.iter().take(200) {
                self.set_position(call.handle, call.at, call.tracker);
            }
        } else {
            self.batch(&calls, false);
        }
        self.maintain();
        for _ in 0..16 {
            let centre = self.some_spot();
            let r = (self.rng.unit() * f64::from(self.ground.size) * 10.0).min(f64::from(EDGE)) as f32;
            self.query_around(centre, r);
            if self.rng.once_in(2) {
                self.nearest(centre, r);
            }
        }
        for _ in 0..self.rng.below(5) {
            let at = self.ground.spot(&mut self.rng);
            let tracker = tracker(None, &mut self.rng);
            self.insert(at, tracker);
        }
    }

    /// Fills some of the slots, or all of them and one more.
    pub fn fill(&mut self) {
        let n = self.reading.slots.slots.len() as u64;
        let objects = if self.rng.once_in(3) { n + 2 } else { self.rng.below(n + 1) };
        for _ in 0..objects {
            if self.log.done() {
                return;
            }
            let from = self.some_spot();
            let at = if self.rng.once_in(2) { self.ground.spot(&mut self.rng) } else { self.ground.spot_by(from, &mut self.rng) };
            let tracker = self.rng.below(8) as u32;
            self.insert(at, tracker);
        }
    }

    /// Deferred calls that no maintain follows, so that objects are in all four states.
    pub fn defer(&mut self) {
        let handles: Vec<Handle> = self.reading.slots.objects().map(|(h, _)| h).collect();
        for h in handles {
            let (_, at, _, own) = self.reading.get(h);
            match self.rng.below(4) {
                0 => (),
                1 => {
                    let still = at_rest(at, &mut self.rng);
                    self.set_position(h, still, own);
                }
                2 => {
                    let away = Spot::new(self.ground.coordinate(&mut self.rng), -at.y - self.ground.size as f32);
                    self.set_position(h, Spot::new(away.x, away.y.clamp(-EDGE, EDGE)), own);
                }
                _ => self.remove(h, own, false),
            }
        }
    }

    /// Any call of each kind, for tables like these.
    pub fn all_calls(&mut self) -> Vec<PointCall> {
        let (h, at, data) = (handle(&self.reading.slots, &mut self.rng), self.some_spot(), self.rng.bits());
        let (own, new) = (self.tracker(h), tracker(None, &mut self.rng));
        let to_set = if self.rng.once_in(6) { Spot::new(at.x, wild(&mut self.rng)) } else { at };
        let (from, to) = (self.some_spot(), self.ground.any_spot(&mut self.rng));
        let across = Spot::new(self.ground.across(from.x, &mut self.rng), self.ground.across(from.y, &mut self.rng));
        let r = self.ground.radius(from, at, &mut self.rng);
        let (centre, near) = self.centre_and_radius();
        let most = self.reading.slots.len() + 2;
        let lens = [places(most, &mut self.rng), places(most, &mut self.rng), places(most, &mut self.rng)];
        let calls: Vec<_> = (0..self.rng.below(4)).map(|_| self.deferred()).collect();
        let uneven = usize::from(self.rng.once_in(8));
        let batch = PointCall::Batch(calls.clone(), uneven, places(calls.len(), &mut self.rng));
        let size = self.rng.pick(&[0, 1, self.ground.size, 1_048_576, 1_048_577]);
        vec![
            PointCall::Len,
            PointCall::Get(h),
            PointCall::Handles(lens[0]),
            PointCall::Query(Corners::Cells, from, across, lens),
            PointCall::Query(Corners::Sorted, across, from, lens),
            PointCall::Around(from, r, lens),
            PointCall::Nearest(centre, near),
            PointCall::Insert(to, data, new),
            PointCall::SetPosition(h, to_set, own),
            PointCall::Remove(h, own),
            batch,
            PointCall::RemoveMaintain(h, own),
            PointCall::Maintain,
            PointCall::Clear(lens[0], lens[1]),
            PointCall::New(size),
        ]
    }
}
