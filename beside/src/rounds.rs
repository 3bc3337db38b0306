//! A run: rounds from a seed, until so many calls are made, or one round alone.
use crate::log::Log;
use crate::random::Rng;
use crate::traps;

/// `words` are CALLS, SEED and ROUND, each of which may be missing. Ends the program: 0 without a difference, 1 with one.
pub fn run(name: &str, words: &[String], mut round: impl FnMut(Rng, &mut Log)) -> ! {
    let numbers: Vec<u64> = words.iter().map(|w| w.parse().unwrap_or_else(|_| panic!("{name} [CALLS [SEED [ROUND]]], all numbers"))).collect();
    let calls = numbers.first().copied().unwrap_or(1_000_000);
    let seed = numbers.get(1).copied().unwrap_or(1);
    let mut log = Log::new(seed, calls);
    println!("seed {seed}, {calls} calls");
    traps::watch(seed);
    log.round = numbers.get(2).copied().unwrap_or(0);
    loop {
        traps::round(log.round);
        round(Rng::of_round(seed, log.round), &mut log);
        log.round += 1;
        if log.done() || numbers.len() > 2 {
            break;
        }
    }
    log.summary(name);
    std::process::exit(i32::from(log.differences > 0))
}
