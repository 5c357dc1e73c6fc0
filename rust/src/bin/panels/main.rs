//! Forty guests on one frame, their calls interleaved by a seed, and each guest alone.
mod art;
mod font;
mod guests;
mod machine;
mod pen;
mod png;

use machine::{hash, Account, Call, Machine, Random, GUESTS, WIDTH};
use std::io::Write;
use std::process::ExitCode;
use std::time::{Duration, Instant};
use tilefringe::Rect;

const HELP: &str = "\
panels: forty guests on a frame of 800 by 480, each in its window

usage: panels [--seed N] [--guests N] [--alone G] [--overlap] [--png FILE] [--scale N]

Prints a line a guest, `guest bill refused`, then a hash of the order of calls, then one line that says whether each guest has the answers,
the bill and the window that it has alone, with a hash of the frame.

  --seed N     interleaves the calls by this seed (1)
  --guests N   only the first N guests, 1 to 40 (40)
  --alone G    runs guest G alone
  --overlap    lets the windows of guests 0 and 1 share pixels
  --png FILE   writes the frame; with --alone, the guest's window
  --scale N    writes each pixel N by N, 1 to 8 (1)
  --help       prints this

Exit status: 0 equal, 1 not equal, 2 a bad argument, a file that cannot be written, or another floating-point environment than the proofs
suppose.
";

struct Options {
    seed: u64,
    guests: usize,
    alone: Option<usize>,
    overlap: bool,
    png: Option<String>,
    scale: usize,
}

/// The options; none where help is asked for.
fn options(mut args: impl Iterator<Item = String>) -> Result<Option<Options>, String> {
    let mut options = Options { seed: 1, guests: GUESTS, alone: None, overlap: false, png: None, scale: 1 };
    while let Some(arg) = args.next() {
        let mut value = || args.next().ok_or(format!("{arg} wants a value"));
        let number = |text: String, low: u64, high: u64| match text.parse() {
            Ok(n) if (low..=high).contains(&n) => Ok(n),
            _ => Err(format!("{arg} wants a number from {low} to {high}, not `{text}`")),
        };
        match arg.as_str() {
            "--seed" => options.seed = number(value()?, 0, u64::MAX)?,
            "--guests" => options.guests = number(value()?, 1, GUESTS as u64)? as usize,
            "--alone" => options.alone = Some(number(value()?, 0, GUESTS as u64 - 1)? as usize),
            "--scale" => options.scale = number(value()?, 1, 8)? as usize,
            "--overlap" => options.overlap = true,
            "--png" => options.png = Some(value()?),
            "--help" | "-h" => return Ok(None),
            _ => return Err(format!("unknown argument `{arg}`")),
        }
    }
    if options.alone.is_some_and(|guest| guest >= options.guests) {
        return Err("--alone names a guest that --guests leaves out".to_string());
    }
    if options.overlap && (options.guests < 2 || options.alone.is_some()) {
        return Err("--overlap wants two guests".to_string());
    }
    Ok(Some(options))
}

/// Tells on standard error how far a run is, once a second after its first.
struct Progress {
    told: Instant,
    done: usize,
    total: usize,
}

impl Progress {
    fn step(&mut self) {
        self.done += 1;
        if self.told.elapsed() >= Duration::from_secs(1) {
            self.told = Instant::now();
            eprintln!("panels: {} of {} calls", self.done, self.total);
        }
    }
}

/// The guests of the calls, in their order: each next call is any that is left, with the same chance.
fn interleaved(lengths: &[usize], seed: u64) -> Vec<usize> {
    let mut left = lengths.to_vec();
    let mut random = Random(seed);
    (0..lengths.iter().sum::<usize>())
        .rev()
        .map(|rest| {
            let mut pick = random.below(rest as u64 + 1) as usize;
            let guest = left
                .iter()
                .position(|&n| {
                    if pick < n {
                        true
                    } else {
                        pick -= n;
                        false
                    }
                })
                .expect("a call is left");
            left[guest] -= 1;
            guest
        })
        .collect()
}

fn run(calls: &[Vec<Call>], order: &[usize], progress: &mut Progress) -> (Machine, Vec<Account>) {
    let mut machine = Machine::start();
    let mut accounts = vec![Account::default(); calls.len()];
    for &guest in order {
        let answers = &mut accounts[guest].answers;
        answers.push(machine.call(&calls[guest][answers.len()]));
        progress.step();
    }
    (machine, accounts)
}

/// The places of a window's pixels in the frame.
fn pixels(window: Rect) -> impl Iterator<Item = usize> {
    let top = machine::HEIGHT as i32 - window.y - window.height;
    (top..top + window.height).flat_map(move |row| (window.x..window.x + window.width).map(move |x| (row * WIDTH as i32 + x) as usize))
}

fn same_pixel(a: &Machine, b: &Machine, at: usize) -> bool {
    let colors = 4 * at..4 * at + 4;
    let (depth, other) = (a.target.depths()[at], b.target.depths()[at]);
    a.target.colors()[colors.clone()] == b.target.colors()[colors]
        && (depth.to_bits() == other.to_bits() || depth.is_nan() && other.is_nan())
}

/// What differs from each guest alone; empty where all is equal.
fn differences(options: &Options, calls: &[Vec<Call>], all: &(Machine, Vec<Account>), progress: &mut Progress) -> Vec<String> {
    let (machine, accounts) = all;
    let mut found = Vec::new();
    for guest in 0..calls.len() {
        let (alone, apart) = run(calls, &vec![guest; calls[guest].len()], progress);
        let mut parts = Vec::new();
        let (account, apart) = (&accounts[guest], &apart[guest]);
        if account.bill() != apart.bill() {
            parts.push(format!("bill {}, alone {}", account.bill(), apart.bill()));
        } else if account.answers != apart.answers {
            parts.push("answers".to_string());
        }
        let window = guests::window(guest, options.overlap);
        let other = pixels(window).filter(|&at| !same_pixel(machine, &alone, at)).count();
        if other > 0 {
            parts.push(format!("{other} pixels"));
        }
        if !parts.is_empty() {
            found.push(format!("guest {guest}: {}", parts.join(", ")));
        }
    }
    let mut outside = vec![true; WIDTH as usize * machine::HEIGHT as usize];
    for at in (0..calls.len()).flat_map(|guest| pixels(guests::window(guest, options.overlap))) {
        outside[at] = false;
    }
    let start = Machine::start();
    let changed = (0..outside.len()).filter(|&at| outside[at] && !same_pixel(machine, &start, at)).count();
    if changed > 0 {
        found.push(format!("{changed} pixels in no window"));
    }
    found
}

/// A part of the frame, each pixel `scale` by `scale`.
fn picture(machine: &Machine, part: Rect, scale: usize) -> Vec<u8> {
    let width = part.width as usize;
    let places: Vec<usize> = pixels(part).collect();
    let mut rgb = Vec::new();
    for row in places.chunks(width) {
        let line: Vec<u8> =
            row.iter().flat_map(|at| std::iter::repeat_n(&machine.target.colors()[4 * at..4 * at + 3], scale)).flatten().copied().collect();
        rgb.extend(line.repeat(scale));
    }
    png::encode(width * scale, part.height as usize * scale, &rgb)
}

fn frame_hash(machine: &Machine) -> u64 {
    let depths = machine.target.depths().iter().flat_map(|depth| depth.to_bits().to_le_bytes());
    hash(machine.target.colors().iter().copied().chain(depths))
}

/// Answers whether all was equal.
fn report(options: &Options, out: &mut impl Write) -> std::io::Result<bool> {
    let calls: Vec<Vec<Call>> = (0..options.guests).map(|guest| guests::calls(guest, options.overlap)).collect();
    let lengths: Vec<usize> = calls.iter().map(Vec::len).collect();
    let order = match options.alone {
        Some(guest) => vec![guest; lengths[guest]],
        None => interleaved(&lengths, options.seed),
    };
    let rest = if options.alone.is_some() { 0 } else { order.len() };
    let mut progress = Progress { told: Instant::now(), done: 0, total: order.len() + rest };
    let all = run(&calls, &order, &mut progress);
    for (guest, account) in all.1.iter().enumerate().filter(|(guest, _)| options.alone.is_none_or(|alone| alone == *guest)) {
        writeln!(out, "{guest} {} {}", account.bill(), account.refused())?;
    }
    writeln!(out, "order {:016x} of {} calls", hash(order.iter().map(|&guest| guest as u8)), order.len())?;
    if let Some(file) = &options.png {
        let whole = Rect::new(0, 0, WIDTH as i32, machine::HEIGHT as i32);
        let part = options.alone.map_or(whole, |guest| guests::window(guest, options.overlap));
        std::fs::write(file, picture(&all.0, part, options.scale))
            .map_err(|error| std::io::Error::new(error.kind(), format!("{file}: {error}")))?;
    }
    let frame = frame_hash(&all.0);
    if let Some(guest) = options.alone {
        writeln!(out, "guest {guest} alone; frame {frame:016x}")?;
        return Ok(true);
    }
    let found = differences(options, &calls, &all, &mut progress);
    if found.is_empty() {
        writeln!(
            out,
            "equal: each of {} guests has the answers, the bill and the window that it has alone; frame {frame:016x}",
            options.guests
        )?;
    } else {
        writeln!(out, "NOT EQUAL to each guest alone: {}; frame {frame:016x}", found.join("; "))?;
    }
    Ok(found.is_empty())
}

fn main() -> ExitCode {
    let options = match options(std::env::args().skip(1)) {
        Ok(Some(options)) => options,
        Ok(None) => {
            print!("{HELP}");
            return ExitCode::SUCCESS;
        }
        Err(message) => {
            eprintln!("panels: {message}; --help says how");
            return ExitCode::from(2);
        }
    };
    if let Err(environment) = tilefringe::float_environment() {
        eprintln!("panels: {environment}");
        return ExitCode::from(2);
    }
    match report(&options, &mut std::io::stdout().lock()) {
        Ok(true) => ExitCode::SUCCESS,
        Ok(false) => ExitCode::FAILURE,
        Err(error) => {
            eprintln!("panels: {error}");
            ExitCode::from(2)
        }
    }
}

#[cfg(test)]
mod tests {
    use super::*;

    fn refused(args: &[&str]) -> String {
        options(args.iter().map(|arg| arg.to_string())).err().expect("a bad argument")
    }

    #[test]
    fn bad_arguments_get_a_message() {
        assert_eq!(refused(&["--seed"]), "--seed wants a value");
        assert_eq!(refused(&["--guests", "41"]), "--guests wants a number from 1 to 40, not `41`");
        assert_eq!(refused(&["--seed", "x"]), "--seed wants a number from 0 to 18446744073709551615, not `x`");
        assert_eq!(refused(&["--guests", "3", "--alone", "3"]), "--alone names a guest that --guests leaves out");
        assert_eq!(refused(&["--guests", "1", "--overlap"]), "--overlap wants two guests");
        assert_eq!(refused(&["frame"]), "unknown argument `frame`");
    }

    #[test]
    fn an_order_has_every_call_once() {
        let order = interleaved(&[3, 0, 5], 7);
        assert_eq!(order.iter().filter(|&&guest| guest == 0).count(), 3);
        assert_eq!(order.iter().filter(|&&guest| guest == 2).count(), 5);
        assert_eq!(order.len(), 8);
        assert_ne!(interleaved(&[20, 20], 1), interleaved(&[20, 20], 2));
    }
}
