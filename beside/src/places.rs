//! Coordinates: those of a desk, any bit pattern of the domain, neighbours of cell edges, subnormals and zeros, the edge of the domain, quarters of cells.
use crate::box_reading::Aabb;
use crate::random::Rng;
use crate::rules::{in_domain, Spot, EDGE};

#[derive(Clone, Copy, Debug, PartialEq)]
pub enum Kind {
    Desk,
    Bits,
    Edges,
    Tiny,
    Near,
    Far,
    Lattice,
    Mixed,
    /// Of maps alone.
    Frame,
}

pub const KINDS: [Kind; 8] = [Kind::Desk, Kind::Bits, Kind::Edges, Kind::Tiny, Kind::Near, Kind::Far, Kind::Lattice, Kind::Mixed];

/// Where the coordinates of a round come from.
#[derive(Clone, Copy, Debug)]
pub struct Ground {
    pub kind: Kind,
    pub size: u32,
}

/// So many binary32 places up or down, over both zeros, kept inside the domain.
pub fn neighbour(c: f32, places: i64) -> f32 {
    let rank = |bits: u32| if bits >> 31 == 1 { -i64::from(bits & 0x7FFF_FFFF) - 1 } else { i64::from(bits) };
    let moved = rank(c.to_bits()) + places;
    let bits = if moved < 0 { (-(moved + 1)) as u32 | 0x8000_0000 } else { moved as u32 };
    f32::from_bits(bits).clamp(-EDGE, EDGE)
}

/// A zero of either sign.
fn zero(rng: &mut Rng) -> f32 {
    rng.pick(&[0.0, -0.0])
}

/// A position as a hand sends it that rests: the recorded one, a zero with either sign; now and then beside it by one place in x alone or in y alone.
pub fn at_rest(at: Spot, rng: &mut Rng) -> Spot {
    let still = |c: f32, rng: &mut Rng| if c == 0.0 { zero(rng) } else { c };
    let (x, y) = (still(at.x, rng), still(at.y, rng));
    match rng.below(6) {
        0 => Spot::new(neighbour(x, rng.pick(&[-1, 1])), y),
        1 => Spot::new(x, neighbour(y, rng.pick(&[-1, 1]))),
        _ => Spot::new(x, y),
    }
}

/// What kind of new position it is beside the recorded one, for the counts of a run: by their numbers first, then by the bits of zeros.
pub fn sent_kind(at: Spot, to: Spot) -> &'static str {
    let beside = |a: f32, b: f32| neighbour(a, 1) == b || neighbour(a, -1) == b;
    let bits = (to.x.to_bits() != at.x.to_bits(), to.y.to_bits() != at.y.to_bits());
    match (to.x != at.x, to.y != at.y) {
        (false, false) if bits == (false, false) => "sent: as recorded",
        (false, false) if bits == (true, false) => "sent: as recorded but the zero of x",
        (false, false) if bits == (false, true) => "sent: as recorded but the zero of y",
        (false, false) => "sent: as recorded but both zeros",
        (true, false) if beside(at.x, to.x) => "sent: a place beside in x alone",
        (false, true) if beside(at.y, to.y) => "sent: a place beside in y alone",
        (true, false) => "sent: elsewhere in x alone",
        (false, true) => "sent: elsewhere in y alone",
        (true, true) => "sent: elsewhere in both",
    }
}

/// An edge of a block of the frame, every second time, or a place or two beside it.
fn beside(edge: f32, rng: &mut Rng) -> f32 {
    neighbour(edge, rng.pick(&[-2, -1, 0, 0, 0, 1]))
}

/// A number outside the domain, or any bits at all.
pub fn wild(rng: &mut Rng) -> f32 {
    let beyond = f32::from_bits(EDGE.to_bits() + 1);
    let infinity = f32::INFINITY;
    let known = [f32::NAN, -f32::NAN, infinity, -infinity, beyond, -beyond, f32::MAX, f32::MIN, f32::from_bits(0x7F80_0001)];
    if rng.once_in(4) {
        f32::from_bits(rng.bits())
    } else {
        rng.pick(&known)
    }
}

impl Ground {
    pub fn coordinate(&self, rng: &mut Rng) -> f32 {
        let size = self.size as f32;
        if rng.once_in(24) {
            return zero(rng);
        }
        let c = match self.kind {
            Kind::Desk if rng.once_in(2) => rng.within(-256, 16_384) as f32 / 8.0,
            Kind::Desk => (rng.unit() * 2_300.0 - 256.0) as f32,
            Kind::Bits => bit_pattern(rng),
            Kind::Edges => self.edge(rng),
            Kind::Tiny => tiny(rng),
            Kind::Near => ((rng.unit() * 6.0 - 3.0) * f64::from(self.size)) as f32,
            Kind::Far => {
                let inward = if rng.once_in(2) { rng.within(0, 3) as f32 * size } else { 0.0 };
                let c = neighbour(EDGE - inward, -rng.within(0, 3));
                if rng.once_in(2) {
                    -c
                } else {
                    c
                }
            }
            // Few places, so that many points stand on one, are equally far from another, and on edges of cells.
            Kind::Lattice => rng.within(-8, 8) as f32 * size / 4.0,
            // The frame of a map, 1280 by 720: an edge of a block or of the frame, or a place or two beside it; anywhere, a little outside too; or far away.
            Kind::Frame => {
                let far = rng.pick(&[1_280, 720]);
                match rng.below(4) {
                    0 => beside((rng.within(-1, far / 16 + 1) * 16) as f32, rng),
                    1 => beside(rng.pick(&[0, far]) as f32, rng),
                    2 if rng.once_in(6) => bit_pattern(rng),
                    _ => (rng.unit() * (far + 40) as f64 - 20.0) as f32,
                }
            }
            Kind::Mixed => {
                let kind = rng.pick(&KINDS[..7]);
                Ground { kind, size: self.size }.coordinate(rng)
            }
        };
        c.clamp(-EDGE, EDGE)
    }

    /// An edge of a cell, or a neighbour of it by a place or two.
    fn edge(&self, rng: &mut Rng) -> f32 {
        let most = 1_048_576 / i64::from(self.size);
        let reach = if rng.once_in(4) { most } else { most.min(4) };
        let edge = rng.within(-reach, reach) * i64::from(self.size);
        neighbour(edge as f32, rng.within(-2, 2))
    }

    /// Any position; as often as a coordinate is a zero, both are.
    pub fn spot(&self, rng: &mut Rng) -> Spot {
        if rng.once_in(24) {
            return Spot::new(zero(rng), zero(rng));
        }
        let x = self.coordinate(rng);
        Spot::new(x, self.coordinate(rng))
    }

    /// A position that is one of a call: now and then outside the domain.
    pub fn any_spot(&self, rng: &mut Rng) -> Spot {
        let mut spot = self.spot(rng);
        if rng.once_in(60) {
            spot.x = wild(rng);
        }
        if rng.once_in(60) {
            spot.y = wild(rng);
        }
        spot
    }

    /// A coordinate by another one: itself, a place or two beside it, in its cell or a few cells away.
    pub fn by(&self, c: f32, rng: &mut Rng) -> f32 {
        if !in_domain(c) {
            return self.coordinate(rng);
        }
        let size = f64::from(self.size);
        let moved = match rng.below(6) {
            0 => c,
            1 => neighbour(c, rng.within(-2, 2)),
            2 => (f64::from(c) + (rng.unit() - 0.5) * size) as f32,
            3 => (f64::from(c) + (rng.unit() - 0.5) * size * 6.0) as f32,
            4 => (f64::from(c) + rng.within(-3, 3) as f64 * size) as f32,
            _ => -c,
        };
        moved.clamp(-EDGE, EDGE)
    }

    pub fn spot_by(&self, at: Spot, rng: &mut Rng) -> Spot {
        let x = self.by(at.x, rng);
        Spot::new(x, self.by(at.y, rng))
    }

    /// The other corner of a range: within few cells mostly, at the limit of 4,096 cells, or past it.
    pub fn across(&self, c: f32, rng: &mut Rng) -> f32 {
        let size = f64::from(self.size);
        if self.kind == Kind::Frame {
            // Some blocks; every second time to an edge of one.
            let far = c + (rng.unit() * 16.0 * rng.pick(&[0.0, 1.0, 2.0, 4.0, 8.0, 40.0])) as f32;
            let edge = if rng.once_in(2) { beside((far / 16.0).round() * 16.0, rng) } else { far };
            return edge.max(c).clamp(-EDGE, EDGE);
        }
        let cells = match rng.below(12) {
            0 => 0.0,
            1..=4 => rng.unit(),
            5..=8 => rng.unit() * 8.0,
            9 => 62.0 + rng.below(4) as f64,
            10 => rng.unit() * 64.0,
            _ => rng.unit() * 300.0,
        };
        ((f64::from(c) + cells * size) as f32).clamp(-EDGE, EDGE)
    }

    /// A box: of one cell or many; now and then reversed or outside the domain.
    pub fn any_box(&self, from: Spot, rng: &mut Rng) -> Aabb {
        let mut ll = if self.kind == Kind::Frame { self.spot(rng) } else { self.spot_by(from, rng) };
        let ur = Spot::new(self.across(ll.x, rng), self.across(ll.y, rng));
        if rng.once_in(80) {
            ll.x = wild(rng);
        }
        let aabb = Aabb { ll, ur };
        match rng.below(80) {
            0 => Aabb { ll: ur, ur: ll },
            1 => Aabb { ll: Spot::new(ur.x, ll.y), ur: Spot::new(ll.x, ur.y) },
            2 => Aabb { ll, ur: Spot::new(ur.x, wild(rng)) },
            _ => aabb,
        }
    }

    /// A radius for a centre: 0, an exact distance to a point and its neighbours, some cells, anything, or outside the domain.
    pub fn radius(&self, centre: Spot, to: Spot, rng: &mut Rng) -> f32 {
        let (dx, dy) = (f64::from(to.x) - f64::from(centre.x), f64::from(to.y) - f64::from(centre.y));
        let distance = (dx * dx + dy * dy).sqrt() as f32;
        let size = f64::from(self.size);
        match rng.below(16) {
            0 => rng.pick(&[0.0, -0.0, f32::from_bits(1), f32::from_bits(0x0080_0000)]),
            1..=6 if distance <= EDGE => neighbour(distance, rng.within(-2, 2)).abs(),
            1..=9 => (rng.unit() * size * 2.0).min(f64::from(EDGE)) as f32,
            10..=12 => (rng.unit() * size * 32.0).min(f64::from(EDGE)) as f32,
            13 if rng.once_in(2) => wild(rng),
            13 => rng.pick(&[-1.0, -f32::from_bits(1), f32::NAN, f32::INFINITY]),
            _ => bit_pattern(rng).abs(),
        }
    }
}

/// Any bits whose number is in the domain.
pub fn bit_pattern(rng: &mut Rng) -> f32 {
    loop {
        let c = f32::from_bits((rng.bits() & 0x807F_FFFF) | (rng.below(148) as u32) << 23);
        if in_domain(c) {
            return c;
        }
    }
}

/// Zeros of both signs, subnormals, the least normal numbers, and neighbours of one.
fn tiny(rng: &mut Rng) -> f32 {
    let magnitude = match rng.below(6) {
        0 => 0.0,
        1 => f32::from_bits(1 + rng.below(3) as u32),
        2 => f32::from_bits(rng.bits() & 0x007F_FFFF),
        3 => f32::from_bits(0x0080_0000 - 1 + rng.below(3) as u32),
        4 => f32::from_bits((rng.below(40) as u32) << 23),
        _ => neighbour(1.0, rng.within(-2, 2)),
    };
    if rng.once_in(2) {
        -magnitude
    } else {
        magnitude
    }
}
