//! A trap, or a call that does not end, is said with the seed and the round, so that it can be seen again.
use std::sync::atomic::{AtomicU64, Ordering};

static SEED: AtomicU64 = AtomicU64::new(0);
static ROUND: AtomicU64 = AtomicU64::new(0);

/// Seconds that a round may take.
const ROUND_TIME: u32 = 300;

extern "C" {
    fn signal(number: i32, handler: extern "C" fn(i32)) -> usize;
    fn alarm(seconds: u32) -> u32;
    fn _exit(status: i32) -> !;
}

extern "C" fn trapped(number: i32) {
    eprintln!("TRAP: signal {number}, seed {} round {}", SEED.load(Ordering::Relaxed), ROUND.load(Ordering::Relaxed));
    unsafe { _exit(3) }
}

/// Illegal instruction, trap, abort, bus error, arithmetic, segment, alarm.
pub fn watch(seed: u64) {
    SEED.store(seed, Ordering::Relaxed);
    for number in [4, 5, 6, 7, 8, 11, 14] {
        unsafe { signal(number, trapped) };
    }
}

pub fn round(round: u64) {
    ROUND.store(round, Ordering::Relaxed);
    unsafe { alarm(ROUND_TIME) };
}
