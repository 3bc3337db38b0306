//! Maps of pairs of grids: the rounds of both grids build them, each is kept in some states, and `fill_map` is held to the original in the same states.
use crate::box_round::BoxRound;
use crate::log::Log;
use crate::map_calls::{MapCall, FRAME};
use crate::map_reading::{map, Circle, SIDE};
use crate::original::{OldBoxes, OldPoints};
use crate::point_round::PointRound;
use crate::random::Rng;
use crate::rules::*;
use crate::tables::{BoxTables, PointTables};

pub struct MapRound<'a> {
    rng: Rng,
    points: Vec<(PointTables, OldPoints)>,
    boxes: Vec<(BoxTables, OldBoxes)>,
    log: &'a mut Log,
}

/// Just filled; after any calls; with everything pending, unless these are too many calls; after maintain.
fn point_states(mut round: PointRound) -> Vec<(PointTables, OldPoints)> {
    round.fill();
    let mut states = vec![round.state()];
    (0..60).for_each(|_| round.step());
    states.push(round.state());
    if round.tables().nums.len() <= 512 {
        round.defer();
        states.push(round.state());
    }
    round.maintain();
    states.push(round.state());
    states
}

fn box_states(mut round: BoxRound) -> Vec<(BoxTables, OldBoxes)> {
    round.fill();
    let mut states = vec![round.state()];
    for _ in 0..2 {
        (0..60).for_each(|_| round.step());
        states.push(round.state());
    }
    states
}

impl<'a> MapRound<'a> {
    pub fn new(mut rng: Rng, n: usize, box_n: usize, pool: usize, log: &'a mut Log) -> Self {
        let points = point_states(PointRound::new(Rng::new(rng.word()), FRAME, n, log));
        let boxes = box_states(BoxRound::new(Rng::new(rng.word()), FRAME, box_n, pool, log));
        MapRound { rng, points, boxes, log }
    }

    /// A call on one of the pairs; now and then a grid of another size, or none, stands for one of the two.
    pub fn step(&mut self) {
        let rng = &mut self.rng;
        let (points, old) = &self.points[rng.below(self.points.len() as u64) as usize];
        let (boxes, old_boxes) = &self.boxes[rng.below(self.boxes.len() as u64) as usize];
        let recorded = old.places();
        let call = MapCall::any(&recorded, rng);
        let size = if rng.once_in(2) { Some(rng.pick(&[1, 15, 17, 32, 1_048_576])) } else { None };
        match rng.below(10) {
            0 => {
                let mut other = PointTables::new(2);
                let size = size.filter(|size| other.call_new(*size) == DONE);
                call.hold(&other, boxes, call.answer(size, Some(SIDE)), Vec::new, rng, self.log);
            }
            1 => {
                let mut other = BoxTables::new(2, 4);
                let size = size.filter(|size| other.call_new(*size) == DONE);
                call.hold(points, &other, call.answer(Some(SIDE), size), Vec::new, rng, self.log);
            }
            _ => {
                let found = |c: &Circle| old.query_around(c.centre, c.r).into_iter().map(|(_, at)| Spot::of_bits(at));
                let map = || map(&call.circles.iter().flat_map(found).collect::<Vec<_>>(), &recorded, |b| !old_boxes.query(b).is_empty());
                call.hold(points, boxes, call.answer(Some(SIDE), Some(SIDE)), map, rng, self.log);
            }
        }
    }
}
