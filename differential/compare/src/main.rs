//! `differential/run`: compares the port with the Rust, or records the Rust's answers.
use compare::parts::PARTS;
use compare::{judge, Ctx, Part, Record};
use std::process::ExitCode;

struct Asked {
    seed: u64,
    cases: Option<u64>,
    full: bool,
    record: bool,
    parts: Vec<&'static Part>,
}

/// What --help prints. differential/run prints it by itself, so that it needs no archive.
const USAGE: &str = include_str!("../help.txt");

/// A part that help.txt does not have, with its cases.
fn untold() -> Option<&'static Part> {
    PARTS.iter().find(|part| {
        let (start, end) = (format!("  {:<10} ", part.name), format!(" ({} cases)", part.cases));
        !USAGE.lines().any(|line| line.starts_with(&start) && line.ends_with(&end))
    })
}

fn number(option: &str, word: Option<String>) -> Result<u64, String> {
    let word = word.ok_or(format!("{option} needs a number"))?;
    word.replace(['_', ','], "").parse().map_err(|_| format!("{option} needs a number, not {word:?}"))
}

/// The arguments, or `None` for --help.
fn asked(mut words: impl Iterator<Item = String>) -> Result<Option<Asked>, String> {
    let mut asked = Asked { seed: 1, cases: None, full: false, record: false, parts: Vec::new() };
    while let Some(word) = words.next() {
        match word.as_str() {
            "--help" | "-h" => return Ok(None),
            "--seed" => asked.seed = number("--seed", words.next())?,
            "--cases" => asked.cases = Some(number("--cases", words.next())?),
            "--full" => asked.full = true,
            "--record" => asked.record = true,
            option if option.starts_with('-') => return Err(format!("unknown option {option:?}")),
            name => match PARTS.iter().find(|part| part.name == name) {
                Some(part) => asked.parts.push(part),
                None => {
                    let names: Vec<&str> = PARTS.iter().map(|part| part.name).collect();
                    return Err(format!("no part {name:?}: there are {}", names.join(", ")));
                }
            },
        }
    }
    if asked.parts.is_empty() {
        asked.parts = PARTS.iter().collect();
    }
    Ok(Some(asked))
}

fn recorded(part: &Part) -> Option<Record> {
    let mut record = Record::default();
    part.record?(&mut record);
    Some(record)
}

fn write_records(parts: &[&Part]) -> ExitCode {
    for part in parts {
        let Some(record) = recorded(part) else {
            println!("{}: keeps no record", part.name);
            continue;
        };
        if let Err(e) = record.write(part.name) {
            eprintln!("crates/replay_{}: {e}", part.name);
            return ExitCode::from(1);
        }
        println!("{}: {} answers written to crates/replay_{}", part.name, record.answers(), part.name);
    }
    ExitCode::SUCCESS
}

fn compare_all(asked: &Asked) -> ExitCode {
    let (mut cases, mut differences, mut reached) = (0, 0, true);
    for part in &asked.parts {
        let mut ctx = Ctx::new(part.name, asked.seed, asked.cases.unwrap_or(part.cases), part.cases, asked.full);
        (part.run)(&mut ctx);
        if let Some(record) = recorded(part) {
            ctx.tally.add("recorded answers", record.answers());
            ctx.floor("recorded answers", 400);
            ctx.tally.cases += 1;
            if let Some(fault) = record.fault(part.name) {
                ctx.tally.difference(fault);
            }
        }
        reached &= ctx.report();
        cases += ctx.tally.cases;
        differences += ctx.tally.differences;
    }
    println!("{cases} cases, {differences} differences");
    ExitCode::from(u8::from(differences > 0 || !reached))
}

fn main() -> ExitCode {
    judge::quiet_panics();
    if let Some(part) = untold() {
        eprintln!("differential/compare/help.txt has no line of the part {} with {} cases", part.name, part.cases);
        return ExitCode::from(2);
    }
    match asked(std::env::args().skip(1)) {
        Ok(None) => {
            print!("{USAGE}");
            ExitCode::SUCCESS
        }
        Ok(Some(asked)) if asked.record => write_records(&asked.parts),
        Ok(Some(asked)) => compare_all(&asked),
        Err(words) => {
            eprintln!("differential/run: {words} (--help says what there is)");
            ExitCode::from(2)
        }
    }
}
