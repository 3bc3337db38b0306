//! Which calls a round on a box grid makes: any of them in any order.
use crate::box_calls::BoxCall;
use crate::box_reading::Aabb;
use crate::box_round::BoxRound;
use crate::picks::{good, handle, places};
use crate::rules::Spot;

impl BoxRound<'_> {
    /// A corner of some box, or any position.
    fn some_spot(&mut self) -> Spot {
        match good(&self.reading.slots, &mut self.rng) {
            Some(h) if !self.rng.once_in(4) => {
                let aabb = self.reading.get(h).1;
                self.rng.pick(&[aabb.ll, aabb.ur, Spot::new(aabb.ll.x, aabb.ur.y)])
            }
            _ => self.ground.spot(&mut self.rng),
        }
    }

    fn any_box(&mut self) -> Aabb {
        let from = self.some_spot();
        self.ground.any_box(from, &mut self.rng)
    }

    /// As many boxes as there are slots.
    pub fn fill(&mut self) {
        for _ in 0..self.tables().nums.len() {
            let aabb = self.any_box();
            self.insert(aabb);
        }
    }

    /// One call, of any kind.
    pub fn step(&mut self) {
        match self.rng.below(100) {
            0..=23 => {
                let aabb = self.any_box();
                self.insert(aabb);
            }
            24..=43 => {
                let (h, aabb) = (handle(&self.reading.slots, &mut self.rng), self.any_box());
                self.set_aabb(h, aabb);
            }
            44..=49 => {
                let h = handle(&self.reading.slots, &mut self.rng);
                let at = self.reading.get(h).1;
                let nudged = Aabb { ll: self.ground.spot_by(at.ll, &mut self.rng), ur: self.ground.spot_by(at.ur, &mut self.rng) };
                self.set_aabb(h, nudged);
            }
            50..=57 => {
                let h = handle(&self.reading.slots, &mut self.rng);
                self.remove(h);
            }
            58..=63 => {
                let h = handle(&self.reading.slots, &mut self.rng);
                self.get(h);
            }
            64..=65 => self.count(),
            66..=68 => self.handles(),
            69 if self.rng.once_in(6) => self.clear(),
            70..=82 => {
                let q = self.any_box();
                self.query_broad(q);
            }
            _ => {
                let q = self.any_box();
                self.query(q);
            }
        }
    }

    /// Any call of each kind, for tables like these.
    pub fn all_calls(&mut self) -> Vec<BoxCall> {
        let (h, aabb, other, data) = (handle(&self.reading.slots, &mut self.rng), self.any_box(), self.any_box(), self.rng.bits());
        let most = self.reading.slots.len() + 2;
        let lens = [places(most, &mut self.rng), places(most, &mut self.rng), places(most, &mut self.rng)];
        let size = self.rng.pick(&[0, 1, self.ground.size, 1_048_576, 1_048_577]);
        vec![
            BoxCall::Len,
            BoxCall::Get(h),
            BoxCall::Handles(lens[0]),
            BoxCall::Broad(aabb, lens[1]),
            BoxCall::Query(aabb, lens),
            BoxCall::Insert(other, data),
            BoxCall::SetAabb(h, aabb),
            BoxCall::Remove(h),
            BoxCall::Clear(lens[0], lens[1]),
            BoxCall::New(size),
        ]
    }
}
