//! damage [CALLS [SEED [ROUND]]]: damaged tables are given to every call; it answers 3 exactly when the reading of document 01 says that the
//! tables hold no grid, changes no byte then, and else does what document 01 says. Nothing traps.
use beside::box_calls::BoxCall;
use beside::box_round::BoxRound;
use beside::calls::Outcome;
use beside::holds::{read_boxes, read_points};
use beside::log::Log;
use beside::map_calls::{MapCall, FRAME};
use beside::map_reading::{of_readings, Circle};
use beside::places::{Ground, KINDS};
use beside::point_calls::PointCall;
use beside::point_round::PointRound;
use beside::random::Rng;
use beside::rounds;
use beside::ruin::{Ruin, VALUES};
use beside::rules::{Spot, DONE};
use beside::tables::{BoxTables, PointTables};

/// Tables whose every word is set to every value; larger ones are damaged at random.
const SMALL: usize = 400;

/// Damaged tables, one after the other: given to `each`, which is false when it is enough.
fn damaged<T: Ruin + Clone>(whole: &T, rng: &mut Rng, mut each: impl FnMut(&T) -> bool) {
    if !each(whole) || !whole.misfits().iter().all(&mut each) {
        return;
    }
    for table in 0..whole.tables() {
        for longer in [false, true] {
            let mut t = whole.clone();
            t.relength(table, longer);
            if !each(&t) {
                return;
            }
        }
    }
    let rearranged = if whole.words() <= SMALL { 60 } else { 20 };
    for _ in 0..rearranged {
        let mut t = whole.clone();
        t.rearrange(rng);
        if !each(&t) {
            return;
        }
    }
    words(whole, rng, each);
}

/// Each word of small tables set to each value in turn; a few words of large ones.
fn words<T: Ruin + Clone>(whole: &T, rng: &mut Rng, mut each: impl FnMut(&T) -> bool) {
    if whole.words() <= SMALL {
        for word in 0..whole.words() {
            for value in 0..VALUES {
                let mut t = whole.clone();
                t.word(word).set(value);
                if !each(&t) {
                    return;
                }
            }
        }
    }
    for _ in 0..60 {
        let mut t = whole.clone();
        for _ in 0..=rng.below(3) {
            let word = rng.below(t.words() as u64) as usize;
            if rng.once_in(2) {
                t.word(word).set(rng.below(VALUES as u64) as usize);
            } else {
                t.word(word).randomize(rng);
            }
        }
        if !each(&t) {
            return;
        }
    }
}

fn told(log: &mut Log, name: &'static str, got: &Outcome, wanted: &Outcome, what: String) {
    log.call(name, got.answer);
    log.hold(got == wanted, || format!("{what} gave {got:?}, 01 says {wanted:?}"));
}

/// Every call on these tables.
fn try_points(t: &PointTables, calls: &[PointCall], log: &mut Log) {
    let held = read_points(t);
    log.note(held.as_ref().err().unwrap_or(&"tables that hold a grid"), 1);
    let mut after = t.clone();
    for call in calls {
        // The other calls are given the same handle.
        if let (PointCall::Get(h), Ok(grid)) = (call, &held) {
            log.note(grid.slots.kind(*h), 1);
        }
        let got = call.of_port(&mut after);
        let (wanted, grid) = call.wanted(t, &held);
        told(log, "points", &got, &wanted, format!("{call:?} ({:?})", held.as_ref().err()));
        match grid {
            Some(grid) if got.answer == DONE => {
                let same = read_points(&after).as_ref() == Ok(&grid);
                log.hold(same, || format!("{call:?} left other tables than 01 says"));
                let built = matches!(call, PointCall::New(_));
                log.hold(built || after.kept_idle_rows(t), || format!("{call:?} changed a row that is not in use"));
                after.copy_from(t);
            }
            _ => log.hold(after == *t, || format!("{call:?} was refused and changed a table")),
        }
    }
}

fn try_boxes(t: &BoxTables, calls: &[BoxCall], log: &mut Log) {
    let held = read_boxes(t);
    log.note(held.as_ref().err().unwrap_or(&"tables that hold a grid"), 1);
    let mut after = t.clone();
    for call in calls {
        if let (BoxCall::Get(h), Ok(grid)) = (call, &held) {
            log.note(grid.slots.kind(*h), 1);
        }
        let got = call.of_port(&mut after);
        let (wanted, grid) = call.wanted(t, &held);
        told(log, "boxes", &got, &wanted, format!("{call:?} ({:?})", held.as_ref().err()));
        match grid {
            Some(grid) if got.answer == DONE => {
                let same = read_boxes(&after).as_ref() == Ok(&grid);
                log.hold(same, || format!("{call:?} left other tables than 01 says"));
                let built = matches!(call, BoxCall::New(_));
                log.hold(built || after.kept_idle_rows(t), || format!("{call:?} changed a row that is not in use"));
                after.copy_from(t);
            }
            _ => log.hold(after == *t, || format!("{call:?} was refused and changed a table")),
        }
    }
}

/// The map of both grids, of which one is damaged. One that is filled is dear to read, so that most of the calls that the tables allow have a bad circle.
fn try_map(points: &PointTables, boxes: &BoxTables, rng: &mut Rng, log: &mut Log) {
    let (p, b) = (read_points(points), read_boxes(boxes));
    let spots: Vec<Spot> = p.iter().flat_map(|p| p.slots.objects().map(|(_, o)| o.at)).collect();
    let sizes = (p.as_ref().ok().map(|p| p.size), b.as_ref().ok().map(|b| b.size));
    let mut call = MapCall::any(&spots, rng);
    if call.answer(sizes.0, sizes.1) == DONE && !rng.once_in(16) {
        call.circles = vec![Circle { centre: FRAME.spot(rng), r: -1.0 }];
    }
    let map = || of_readings(p.as_ref().unwrap(), b.as_ref().unwrap(), &call.circles);
    call.hold(points, boxes, call.answer(sizes.0, sizes.1), map, rng, log);
}

/// Of the frame every second time, where `fill_map` takes the tables.
fn some_ground(rng: &mut Rng) -> Ground {
    if rng.once_in(2) {
        FRAME
    } else {
        Ground { kind: rng.pick(&KINDS), size: rng.any_length(1_048_576) as u32 }
    }
}

/// The other grid of a map: a small one that is whole.
fn whole_points(rng: &mut Rng, log: &mut Log) -> PointTables {
    let mut round = PointRound::new(Rng::new(rng.word()), FRAME, 5, log);
    (0..20).for_each(|_| round.step());
    round.tables().clone()
}

fn whole_boxes(rng: &mut Rng, log: &mut Log) -> BoxTables {
    let mut round = BoxRound::new(Rng::new(rng.word()), FRAME, 3, 40, log);
    (0..20).for_each(|_| round.step());
    round.tables().clone()
}

/// A grid with objects, pending states and, one time in three, slots that are retired or about to be; then its damage.
fn points(mut rng: Rng, log: &mut Log) {
    let ground = some_ground(&mut rng);
    let n = if rng.once_in(5) { rng.pick(&[63, 64, 65, 300, 4_096]) } else { rng.within(1, 9) } as usize;
    log.what = format!("points, {:?}, size {}, n {n}", ground.kind, ground.size);
    let mut building = Log::new(log.seed, u64::MAX);
    let boxes = whole_boxes(&mut rng, &mut building);
    let mut round = PointRound::new(rng.clone(), ground, n, &mut building);
    round.fill();
    for _ in 0..40 {
        round.step();
    }
    round.fill();
    round.defer();
    let whole = round.tables().clone();
    let in_state = |state: u32| whole.nums.iter().filter(|row| row[1] == 1 && row[3] % 4 == state).count() as u64;
    log.note("points with a new position before damage", in_state(1));
    log.note("points with a relocation before damage", in_state(2));
    log.note("points marked removed before damage", in_state(3));
    log.note("retired slots before damage", whole.nums.iter().filter(|row| row[1] == 2).count() as u64);
    damaged(&whole, &mut rng, |t| {
        try_points(t, &round.all_calls(), log);
        try_map(t, &boxes, &mut round.rng, log);
        !log.done()
    });
    log.hold(building.differences == 0, || "differences while the grid was built".to_string());
}

fn boxes(mut rng: Rng, log: &mut Log) {
    let ground = some_ground(&mut rng);
    let large = rng.once_in(5);
    let n = if large { rng.pick(&[63, 64, 65, 256]) } else { rng.within(1, 5) } as usize;
    let pool = if large { rng.pick(&[512, 8_192]) } else { rng.within(1, 24) } as usize;
    log.what = format!("boxes, {:?}, size {}, n {n}, pool {pool}", ground.kind, ground.size);
    let mut building = Log::new(log.seed, u64::MAX);
    let points = whole_points(&mut rng, &mut building);
    let mut round = BoxRound::new(rng.clone(), ground, n, pool, &mut building);
    for _ in 0..(40 + 2 * n) {
        round.step();
    }
    let whole = round.tables().clone();
    log.note("boxes before damage", whole.nums.iter().filter(|row| row[1] == 1).count() as u64);
    log.note("retired slots before damage", whole.nums.iter().filter(|row| row[1] == 2).count() as u64);
    damaged(&whole, &mut rng, |t| {
        try_boxes(t, &round.all_calls(), log);
        try_map(&points, t, &mut round.rng, log);
        !log.done()
    });
    log.hold(building.differences == 0, || "differences while the grid was built".to_string());
}

fn main() {
    let words: Vec<String> = std::env::args().skip(1).collect();
    rounds::run("damage", &words, |mut rng, log| if rng.once_in(2) { points(rng, log) } else { boxes(rng, log) })
}
