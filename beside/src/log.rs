//! What a run has done so far: calls, answers, differences; how far it is, said every second or two.
use std::collections::BTreeMap;
use std::io::Write;
use std::time::Instant;

/// Differences that are shown; more are only counted.
const SHOWN: u64 = 20;

pub struct Log {
    pub seed: u64,
    pub round: u64,
    pub what: String,
    pub wanted: u64,
    pub calls: u64,
    pub differences: u64,
    answers: BTreeMap<u32, u64>,
    names: BTreeMap<&'static str, u64>,
    notes: BTreeMap<&'static str, u64>,
    started: Instant,
    told: f64,
}

impl Log {
    pub fn new(seed: u64, wanted: u64) -> Self {
        Log {
            seed,
            round: 0,
            what: String::new(),
            wanted,
            calls: 0,
            differences: 0,
            answers: BTreeMap::new(),
            names: BTreeMap::new(),
            notes: BTreeMap::new(),
            started: Instant::now(),
            told: 0.0,
        }
    }

    pub fn done(&self) -> bool {
        self.calls >= self.wanted
    }

    /// A call of the port was made.
    pub fn call(&mut self, name: &'static str, answer: u32) {
        self.calls += 1;
        *self.names.entry(name).or_default() += 1;
        *self.answers.entry(answer).or_default() += 1;
        if self.calls % 1024 == 0 {
            self.progress();
        }
    }

    fn progress(&mut self) {
        let now = self.started.elapsed().as_secs_f64();
        if now - self.told >= 2.0 {
            self.told = now;
            let share = 100 * self.calls / self.wanted;
            eprintln!("{share:3} %  calls {}  differences {}  round {} ({})", self.calls, self.differences, self.round, self.what);
        }
    }

    /// A difference, unless it holds. The seed and the number of the round are enough to see it again.
    pub fn hold(&mut self, holds: bool, difference: impl FnOnce() -> String) {
        if holds {
            return;
        }
        self.differences += 1;
        if self.differences <= SHOWN {
            println!("DIFFERENCE, seed {} round {} call {} ({}): {}", self.seed, self.round, self.calls, self.what, difference());
            let _ = std::io::stdout().flush();
        }
    }

    /// Something worth a count beside the calls: it says what the calls met.
    pub fn note(&mut self, what: &'static str, count: u64) {
        *self.notes.entry(what).or_default() += count;
    }

    pub fn summary(&self, name: &str) {
        println!("calls by name: {}", pairs(&self.names));
        println!("calls by answer: {}", pairs(&self.answers));
        println!("met: {}", pairs(&self.notes));
        let seconds = self.started.elapsed().as_secs_f64();
        println!(
            "{name}: seed {}, {} calls in {} rounds, {} differences, {seconds:.0} s",
            self.seed, self.calls, self.round, self.differences
        );
    }
}

fn pairs<K: std::fmt::Display>(of: &BTreeMap<K, u64>) -> String {
    of.iter().map(|(k, v)| format!("{k} {v}")).collect::<Vec<_>>().join(", ")
}
