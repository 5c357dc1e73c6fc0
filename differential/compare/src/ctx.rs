//! What a part is run with.
use crate::random::Rng;
use crate::tally::Tally;
use std::ops::Range;
use std::sync::atomic::{AtomicU64, Ordering};
use std::sync::Mutex;
use std::thread;

/// A counter that must reach a number, or a share of another counter.
enum Floor {
    AtLeast { name: String, n: u64 },
    Share { name: String, of: String, percent: u64 },
}

pub struct Ctx {
    pub seed: u64,
    /// How many cases the part is asked for.
    pub cases: u64,
    /// Whether the exhaustive sweeps are asked for.
    pub full: bool,
    pub tally: Tally,
    part: &'static str,
    default_cases: u64,
    floors: Vec<Floor>,
}

impl Ctx {
    pub fn new(part: &'static str, seed: u64, cases: u64, default_cases: u64, full: bool) -> Self {
        Self { seed, cases, full, tally: Tally::default(), part, default_cases, floors: Vec::new() }
    }

    /// The run fails unless the counter reaches n; with fewer cases than the default, that share of n.
    pub fn floor(&mut self, name: &str, n: u64) {
        let scaled = if self.cases < self.default_cases {
            (u128::from(n) * u128::from(self.cases) / u128::from(self.default_cases)) as u64
        } else {
            n
        };
        self.floors.push(Floor::AtLeast { name: name.to_string(), n: scaled });
    }

    /// The run fails unless the counter reaches this many in a hundred of another counter.
    pub fn floor_share(&mut self, name: &str, of: &str, percent: u64) {
        self.floors.push(Floor::Share { name: name.to_string(), of: of.to_string(), percent });
    }

    /// A generator for a piece of the part that runs on one core.
    pub fn rng(&self, name: &str) -> Rng {
        Rng::named(self.seed, &format!("{}/{name}", self.part), 0)
    }

    /// Hands out `total` numbers in chunks to all cores: `work` gets a tally, a generator and a range of numbers.
    /// Each chunk has its own generator, so what is run depends on the seed and not on the cores.
    pub fn spread(&mut self, name: &str, total: u64, chunk: u64, work: impl Fn(&mut Tally, &mut Rng, Range<u64>) + Sync) {
        let chunks = total.div_ceil(chunk);
        let next = AtomicU64::new(0);
        let done: Mutex<Vec<(u64, Tally)>> = Mutex::new(Vec::new());
        let cores = thread::available_parallelism().map_or(1, |n| n.get());
        thread::scope(|scope| {
            for _ in 0..cores {
                scope.spawn(|| loop {
                    let k = next.fetch_add(1, Ordering::Relaxed);
                    if k >= chunks {
                        return;
                    }
                    let mut tally = Tally::default();
                    let mut rng = Rng::named(self.seed, &format!("{}/{name}", self.part), k);
                    work(&mut tally, &mut rng, k * chunk..total.min((k + 1) * chunk));
                    done.lock().unwrap().push((k, tally));
                });
            }
        });
        let mut done = done.into_inner().unwrap();
        done.sort_by_key(|(k, _)| *k);
        for (_, tally) in done {
            self.tally.merge(tally);
        }
    }

    /// Prints what was reached and what differs; answers whether every floor was reached.
    pub fn report(&self) -> bool {
        for (name, n) in self.tally.counters() {
            println!("  {}/{name}: {n}", self.part);
        }
        for (name, value) in self.tally.greatests() {
            println!("  {}/{name}: at most {value}", self.part);
        }
        for message in self.tally.messages() {
            println!("DIFFERENCE in {}: {message}", self.part);
        }
        let mut reached = true;
        for floor in &self.floors {
            let (name, n, least) = match floor {
                Floor::AtLeast { name, n } => (name, self.tally.counted(name), *n),
                Floor::Share { name, of, percent } => (name, self.tally.counted(name), self.tally.counted(of) * percent / 100),
            };
            if n < least {
                println!("FLOOR MISSED in {}: {name} is {n}, and must be at least {least}", self.part);
                reached = false;
            }
        }
        println!("{}: {} cases, {} differences", self.part, self.tally.cases, self.tally.differences);
        reached
    }
}
