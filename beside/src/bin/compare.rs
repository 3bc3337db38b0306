//! compare [CALLS [SEED [ROUND]]]: the original and the port on the same calls, until so many calls of the port are made; or one round alone.
//! compare sample FOLDER: records for the trace program to FOLDER/stdin, the original's answers to FOLDER/stdout.
use beside::box_round::BoxRound;
use beside::log::Log;
use beside::map_round::MapRound;
use beside::places::{Ground, Kind, KINDS};
use beside::point_round::PointRound;
use beside::random::Rng;
use beside::rounds;
use beside::sample;

/// Sizes, slots and pools at which something changes; or any.
const SIZES: [u64; 14] = [1, 2, 3, 7, 10, 16, 16, 64, 100, 1_000, 65_536, 524_288, 1_048_575, 1_048_576];
const SLOTS: [u64; 12] = [1, 2, 3, 63, 64, 65, 127, 128, 129, 1_000, 4_095, 4_096];
const BOX_SLOTS: [u64; 8] = [1, 2, 63, 64, 65, 128, 255, 256];
const POOLS: [u64; 8] = [1, 2, 16, 100, 512, 4_096, 8_191, 8_192];

fn number(rng: &mut Rng, known: &[u64], most: u64) -> u64 {
    if rng.once_in(2) {
        rng.pick(known)
    } else {
        rng.any_length(most)
    }
}

fn points(mut rng: Rng, log: &mut Log) {
    let frames = rng.once_in(4);
    // Some hundred points on few places, where many are equally near to another.
    let crowd = !frames && rng.once_in(5);
    let kind = if frames {
        Kind::Desk
    } else if crowd {
        Kind::Lattice
    } else {
        rng.pick(&KINDS)
    };
    let size = if frames { rng.pick(&[10, 16, 32, 64, 128]) } else { number(&mut rng, &SIZES, 1_048_576) as u32 };
    let n = if crowd { rng.within(16, 200) as u64 } else { number(&mut rng, &SLOTS, 4_096) } as usize;
    log.what = format!("points, {}{kind:?}, size {size}, n {n}", if frames { "frames, " } else { "" });
    let steps = if n > 512 { 400 } else { 1_500 };
    let mut round = PointRound::new(rng, Ground { kind, size }, n, log);
    round.fill();
    if frames {
        for _ in 0..8 {
            round.frame();
        }
    } else {
        for _ in 0..steps {
            round.step();
        }
    }
}

fn boxes(mut rng: Rng, log: &mut Log) {
    let kind = rng.pick(&KINDS);
    let size = number(&mut rng, &SIZES, 1_048_576) as u32;
    let n = number(&mut rng, &BOX_SLOTS, 256) as usize;
    let pool = number(&mut rng, &POOLS, 8_192) as usize;
    log.what = format!("boxes, {kind:?}, size {size}, n {n}, pool {pool}");
    let mut round = BoxRound::new(rng, Ground { kind, size }, n, pool, log);
    for _ in 0..1_500 {
        round.step();
    }
}

/// Both grids with cells of 16, and their map: a call is some thousand queries of the original, so that there are few.
fn maps(mut rng: Rng, log: &mut Log) {
    let n = if rng.once_in(24) { 4_096 } else { rng.within(1, 600) } as usize;
    let box_n = number(&mut rng, &BOX_SLOTS, 256) as usize;
    let pool = rng.pick(&[16, 512, 4_096, 8_192]);
    log.what = format!("maps, n {n}, boxes {box_n}, pool {pool}");
    let mut round = MapRound::new(rng, n, box_n, pool, log);
    for _ in 0..40 {
        round.step();
    }
}

fn main() {
    let words: Vec<String> = std::env::args().skip(1).collect();
    if words.len() == 2 && words[0] == "sample" {
        return sample::write(words[1].as_ref()).expect("a folder to write to");
    }
    rounds::run("compare", &words, |mut rng, log| match rng.below(6) {
        0..=2 => points(rng, log),
        3..=4 => boxes(rng, log),
        _ => maps(rng, log),
    })
}
