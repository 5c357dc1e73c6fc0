//! `bench/run`: port and Rust in one process, on the same inputs, taking turns; the best of several rounds counts.
mod workloads;

use std::process::ExitCode;
use std::time::{Duration, Instant};

/// Two sides that are both at the machine's store bandwidth measure alike within this factor.
const NOISE: f64 = 1.05;

/// One line of the report.
pub trait Workload {
    fn name(&self) -> &'static str;
    /// The greatest ratio that --check lets pass.
    fn bar(&self) -> Option<f64>;
    /// How many floats, pixels, samples or calls one turn does: times are per unit.
    fn units(&self) -> u64;
    /// One turn of the port.
    fn port(&mut self);
    /// One turn of the Rust.
    fn rust(&mut self);
    /// Whether a turn of each left the same.
    fn agree(&mut self) -> bool;
}

/// Whether a turn of each, from the same start, leaves the same: for a workload whose two sides work on one memory.
pub fn agree_from<W: Workload, L: PartialEq>(work: &mut W, start: impl Fn(&mut W), left: impl Fn(&W) -> L) -> bool {
    start(work);
    work.port();
    let port = left(work);
    start(work);
    work.rust();
    port == left(work)
}

struct Effort {
    rounds: u32,
    /// How long each side runs in a round.
    slice: Duration,
    /// How often a line that misses its bar is measured again.
    again: u32,
}

const WHOLE: Effort = Effort { rounds: 15, slice: Duration::from_millis(30), again: 0 };
const BRIEF: Effort = Effort { rounds: 6, slice: Duration::from_millis(8), again: 60 };

/// What --help prints. bench/run prints it by itself, so that it needs no archive.
const USAGE: &str = include_str!("../help.txt");

/// Nanoseconds per unit, the best of the rounds for each side.
#[derive(Clone, Copy)]
struct Best {
    port: f64,
    rust: f64,
}

impl Best {
    fn ratio(self) -> f64 {
        self.port / self.rust
    }
}

/// How many turns take about `slice`.
fn turns(slice: Duration, mut turn: impl FnMut()) -> u64 {
    let mut n = 1u64;
    loop {
        let start = Instant::now();
        for _ in 0..n {
            turn();
        }
        let took = start.elapsed();
        if took * 2 >= slice {
            return n;
        }
        n *= 2;
    }
}

fn timed(n: u64, units: u64, mut turn: impl FnMut()) -> f64 {
    let start = Instant::now();
    for _ in 0..n {
        turn();
    }
    start.elapsed().as_nanos() as f64 / (n * units) as f64
}

fn measure(work: &mut dyn Workload, effort: &Effort, mut best: Best) -> Best {
    let units = work.units();
    let port_turns = turns(effort.slice, || work.port());
    let rust_turns = turns(effort.slice, || work.rust());
    for _ in 0..effort.rounds {
        best.port = best.port.min(timed(port_turns, units, || work.port()));
        best.rust = best.rust.min(timed(rust_turns, units, || work.rust()));
    }
    best
}

/// Why a line fails, as an exit status. A missed bar may be noise, and is worth another process; a disagreement never is.
const DISAGREE: u8 = 1;
const MISSED: u8 = 4;

/// Prints the line, and why it fails.
fn line(work: &mut dyn Workload, effort: &Effort) -> Result<(), u8> {
    work.port();
    work.rust();
    if !work.agree() {
        println!("BENCH FAILED {}: the two sides do not agree", work.name());
        return Err(DISAGREE);
    }
    let mut best = measure(work, effort, Best { port: f64::INFINITY, rust: f64::INFINITY });
    let bar = work.bar().map_or(f64::INFINITY, |bar| bar * NOISE);
    for _ in 0..effort.again {
        if best.ratio() <= bar {
            break;
        }
        best = measure(work, effort, best);
    }
    println!("{} {:.3} {:.3} {:.2}", work.name(), best.port, best.rust, best.ratio());
    if effort.again > 0 && best.ratio() > bar {
        println!("BENCH FAILED {}: ratio {:.2} misses the bar of {:.2}", work.name(), best.ratio(), bar / NOISE);
        return Err(MISSED);
    }
    Ok(())
}

fn main() -> ExitCode {
    let (mut check, mut names) = (false, Vec::new());
    let mut all = workloads::all();
    for word in std::env::args().skip(1) {
        match word.as_str() {
            "--help" | "-h" => {
                print!("{USAGE}");
                return ExitCode::SUCCESS;
            }
            "--list" => {
                for work in &all {
                    println!("{} {}", work.name(), work.bar().map_or("no bar".to_string(), |bar| bar.to_string()));
                }
                return ExitCode::SUCCESS;
            }
            "--check" => check = true,
            name if all.iter().any(|work| work.name() == name) => names.push(word),
            _ => {
                eprintln!("bench/run: no workload or option {word:?} (--list and --help say what there is)");
                return ExitCode::from(2);
            }
        }
    }
    let mut failed = Vec::new();
    for work in &mut all {
        if names.is_empty() || names.iter().any(|name| name == work.name()) {
            failed.extend(line(work.as_mut(), if check { &BRIEF } else { &WHOLE }).err());
        }
    }
    // The worst: a disagreement before a missed bar.
    failed.into_iter().min().map_or(ExitCode::SUCCESS, ExitCode::from)
}
