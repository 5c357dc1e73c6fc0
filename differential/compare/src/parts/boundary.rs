//! Abuse at the boundary: every function of include/tilefringe.h with numbers, lengths and bytes of any kind, null pointers with length 0
//! among them. Each slice lies with one end against a page without access rights, and what is only read on pages that cannot be written,
//! so that a byte used past that end stops the run; with BOUNDARY_VALGRIND=N each is a heap block of its own, for a run under valgrind
//! with --error-exitcode=N. A refused call must leave every byte, and a call that is done every byte but those it is to write.
mod inputs;

use self::inputs::*;
use super::draw::reading::{is_call, top_level, RECORD_CODES};
use crate::floats::specials;
use crate::{Ctx, Part, Rng, Tally};
use ::port::boundary::*;
use ::port::draw::Layouts;
use ::port::lent::{faulted, on_crash, Ended, Fault, Lent, Memory, Side, SEGMENTATION_FAULT};
use std::cell::{Cell, RefCell};
use std::env;
use std::sync::OnceLock;

pub const PART: Part = Part {
    name: "boundary",
    cases: 200_000,
    run,
    record: None,
};

/// More bytes than a slice of a random call has.
const ROOM: usize = 1 << 20;

/// valgrind's exit status for an error, in a run under valgrind.
fn valgrind() -> Option<i32> {
    static STATUS: OnceLock<Option<i32>> = OnceLock::new();
    *STATUS.get_or_init(|| env::var("BOUNDARY_VALGRIND").ok().map(|n| n.parse().expect("BOUNDARY_VALGRIND is valgrind's --error-exitcode")))
}

fn memory(writable: bool, room: usize) -> Memory {
    if valgrind().is_some() { Memory::heap(writable) } else { Memory::guarded(writable, room) }
}

/// Memory for the slices of a call: for each a piece to be read, and one to be written.
struct Lender(Vec<[Memory; 2]>);

impl Lender {
    /// For slices of so many bytes.
    fn new(room: usize) -> Self {
        let most = FUNCTIONS.iter().map(|f| f.slices.len()).max().unwrap_or(0);
        Self((0..most).map(|_| [false, true].map(|writable| memory(writable, room))).collect())
    }

    /// What the call answers, and each slice after it: `None` where a byte beside it was written.
    fn call(&mut self, call: &Call) -> (u64, Vec<Option<&[u8]>>) {
        let slices = call.about().slices;
        let mut lent: Vec<Lent> = Vec::with_capacity(slices.len());
        for (pieces, (slice, (_, how))) in self.0.iter_mut().zip(call.slices.iter().zip(slices)) {
            let piece = &mut pieces[usize::from(how.is_written())];
            lent.push(match slice.at {
                At::In(i) => lent[i].first(slice.bytes.len()),
                At::Null if slice.bytes.is_empty() => {
                    piece.lend(&[], Side::End);
                    Lent::null()
                }
                At::Start => piece.lend(&slice.bytes, Side::Start),
                At::Null | At::End => piece.lend(&slice.bytes, Side::End),
            });
        }
        CALLED.set(Some(call.clone()));
        let answer = ::port::boundary::call(call.function, &call.numbers, &lent);
        CALLED.set(None);
        let after = self.0.iter_mut().zip(call.slices.iter().zip(slices)).map(|(pieces, (slice, (_, how)))| match slice.at {
            At::In(_) => Some(&[][..]),
            _ => pieces[usize::from(how.is_written())].after(),
        });
        (answer, after.collect())
    }
}

thread_local! {
    static LENDER: RefCell<Lender> = RefCell::new(Lender::new(ROOM));
    /// The call under way.
    static CALLED: Cell<Option<Call>> = const { Cell::new(None) };
}

/// The call that crashed, printed.
fn crashed(signal: i32) {
    match CALLED.take() {
        Some(call) => println!("CRASH in boundary by signal {signal}: {call:?}"),
        None => println!("CRASH in boundary by signal {signal}, outside a call"),
    }
}

// ---- what a call may write

/// Whether pixel p of the target, rows from the top, is in the box, which counts from the bottom.
fn in_box(p: usize, width: u64, height: u64, [boxed, x, y, w, h]: [u32; 5]) -> bool {
    let [x, y, w, h] = [x, y, w, h].map(|n| i64::from(n as i32));
    let (column, row) = (p as i64 % width as i64, height as i64 - 1 - p as i64 / width as i64);
    boxed == 0 || (x <= column && column < x + w && y <= row && row < y + h)
}

fn scissor(call: &Call) -> [u32; 5] {
    ["boxed", "box_x", "box_y", "box_width", "box_height"].map(|name| call.number(name) as u32)
}

/// Which bytes of the slice `name` a call that is done may write.
fn may_write<'a>(call: &'a Call, name: &str) -> Box<dyn Fn(usize) -> bool + 'a> {
    let number = |name| call.number(name);
    match (call.function, name) {
        (CLEAR_COLOR | CLEAR_DEPTH, _) => {
            let (width, height, scissor) = (number("width"), number("height"), scissor(call));
            Box::new(move |at| in_box(at / 4, width, height, scissor))
        }
        // Whole pairs, a pair a pixel.
        (EXPORT, "out") => {
            let (pixels, len) = (number("width") * number("height"), call.bytes("out").len());
            Box::new(move |at| at as u64 / 2 < pixels && (at | 1) < len)
        }
        (DECODE | DECODE_COMPRESSED, "out") | (IMAGE_SIZE, "size") | (SAMPLE, "texel") | (NEW_TEXTURE, "record") => Box::new(|_| true),
        (DEFINE, "store") => {
            let place = number("place");
            let end = place + 4 * number("width") * number("height");
            Box::new(move |at| (place..end).contains(&(at as u64)))
        }
        // Held to `record_after`, byte for byte.
        (DEFINE | SET_PARAMETER, "record") => Box::new(|_| true),
        (PATCH, "store") => {
            let level = &call.bytes("record")[20 * number("level") as usize..];
            let (width, place) = (u64::from(word(level, 4)).max(1), u64::from(word(level, 12)) + (u64::from(word(level, 16)) << 32));
            let (columns, rows) = (number("xoffset")..number("xoffset") + number("width"), number("yoffset")..number("yoffset") + number("height"));
            Box::new(move |at| {
                let texel = (at as u64).checked_sub(place).map(|offset| offset / 4);
                texel.is_some_and(|texel| columns.contains(&(texel % width)) && rows.contains(&(texel / width)))
            })
        }
        (DRAW, "colors" | "depths") => {
            let settings = call.bytes("settings");
            let (width, height, scissor) = (number("width"), number("height"), [24, 28, 32, 36, 40].map(|at| word(settings, at)));
            let mask = [88, 92, 96, 100].map(|at| word(settings, if name == "colors" { at } else { 52 }) != 0);
            Box::new(move |at| mask[at % 4] && in_box(at / 4, width, height, scissor))
        }
        _ => Box::new(|_| false),
    }
}

/// The record as a define or a setting that is done leaves it: a define's level, those that it drops, and the top level are written; of a
/// setting the parameter; each other byte is as found, the levels' switches too.
fn record_after(call: &Call) -> Vec<u8> {
    let mut record = call.bytes("record").to_vec();
    let mut put = |at: usize, bytes: &[u8]| record[at..at + bytes.len()].copy_from_slice(bytes);
    if call.function == SET_PARAMETER {
        let value = (call.number("value") as u32).to_le_bytes();
        match call.number("pname") {
            0x2801 => put(228, &value),
            0x2800 => put(232, &value),
            0x2802 => put(236, &value),
            0x2803 => put(240, &value),
            _ => {}
        }
        return record;
    }
    let [k, width, height] = ["level", "width", "height"].map(|name| call.number(name) as u32);
    let k = k as usize;
    put(20 * k, &[1, width, height].map(u32::to_le_bytes).concat());
    put(20 * k + 12, &call.number("place").to_le_bytes());
    if k > 0 {
        put(20 * k + 20, &vec![0; 20 * (10 - k)]);
    }
    let top = top_level(&record_of(&record));
    record[220..228].copy_from_slice(&top.to_le_bytes());
    record
}

// ---- one call

/// Whether the layouts that the call is handed have their lengths, and codes that have a value.
fn is_laid_out(call: &Call) -> bool {
    let record = |bytes: &[u8]| bytes.len() == 244 && RECORD_CODES.iter().all(|&(at, codes)| codes.contains(&word(bytes, at)));
    match call.function {
        NEW_TEXTURE => call.bytes("record").len() == 244,
        SAMPLE | DEFINE | PATCH | SET_PARAMETER => record(call.bytes("record")),
        DRAW => {
            let [units, settings, stages, vertices] = ["units", "settings", "stages", "vertices"].map(|name| call.bytes(name).to_vec());
            is_call(&Layouts { units, settings, stages, vertices })
        }
        _ => true,
    }
}

/// The number that the call answers, how many bytes it changed, and what is wrong.
fn check(call: &Call) -> ((u32, u64), Option<String>) {
    LENDER.with_borrow_mut(|lender| checked(lender, call))
}

fn checked(lender: &mut Lender, call: &Call) -> ((u32, u64), Option<String>) {
    let (answer, after) = lender.call(call);
    let (number, count) = if call.function == DRAW { ((answer >> 32) as u32, answer & 0xffff_ffff) } else { (answer as u32, 0) };
    let refused = call.function != BYTES_PER_TEXEL && number != 0;
    let mut wrong = None;
    let mut tell = |words: String| {
        wrong.get_or_insert(words);
    };
    if answer >> 32 != 0 && call.function != DRAW || !call.about().answers.contains(&number) || (refused && count != 0) {
        tell(format!("the answer {answer} is none of the header's"));
    }
    if (number == 255) == is_laid_out(call) {
        tell(format!("the number {number}, where the layouts are right: {}", is_laid_out(call)));
    }
    let mut changed = 0;
    let mut pixels = vec![false; if call.function == DRAW && !refused { call.bytes("depths").len() / 4 } else { 0 }];
    for (i, (slice, (name, _))) in call.slices.iter().zip(call.about().slices).enumerate() {
        let before = &slice.bytes[..];
        let after = match after[i] {
            _ if matches!(slice.at, At::In(_)) => continue,
            Some(after) if after == before && *name != "record" => continue,
            Some(after) => after,
            None => {
                tell(format!("{name}: a byte beside it is written"));
                continue;
            }
        };
        if !refused && *name == "record" && matches!(call.function, DEFINE | SET_PARAMETER) {
            let wanted = record_after(call);
            if let Some(at) = (0..244).find(|&at| after[at] != wanted[at]) {
                tell(format!("record: byte {at} was {}, is {} and not {}", before[at], after[at], wanted[at]));
            }
        }
        let may = if refused { Box::new(|_| false) } else { may_write(call, name) };
        for at in (0..before.len()).filter(|&at| before[at] != after[at]) {
            changed += 1;
            if !may(at) {
                tell(format!("{name}: byte {at} was {} and is {} after the number {number}", before[at], after[at]));
            }
            if let Some(pixel) = pixels.get_mut(at / 4) {
                *pixel = true;
            }
        }
    }
    if pixels.iter().filter(|&&changed| changed).count() as u64 > count {
        tell(format!("more pixels changed than the {count} that were written"));
    }
    ((number, changed), wrong)
}

/// Calls at the limits of sides, all of which are done: images of 1,024 by 1,024, targets of 4,096 by 4,096.
fn largest(tally: &mut Tally, rng: &mut Rng) {
    let mut lender = Lender::new(4 * 4096 * 4096);
    for at in [At::Start, At::End] {
        for mut call in largest_calls(rng) {
            call.slices.iter_mut().for_each(|slice| slice.at = at);
            tally.cases += 1;
            tally.count("calls at the limits of sides");
            let ((number, changed), wrong) = checked(&mut lender, &call);
            if let Some(words) = wrong {
                tally.difference(format!("{words}: {call:?}"));
            } else if number != 0 || (changed == 0 && call.function != SAMPLE) {
                tally.difference(format!("the number {number} and {changed} bytes changed: {call:?}"));
            }
        }
    }
}

/// Records whose levels have each switch, and calls on them: each byte of a record is held to `record_after`.
fn switches(tally: &mut Tally, rng: &mut Rng) {
    LENDER.with_borrow_mut(|lender| {
        for call in switched_calls(rng) {
            tally.cases += 1;
            let ((number, _), wrong) = checked(lender, &call);
            tally.count(if number == 0 { "calls that are done on a record of switches past 1" } else { "refused calls on a record of switches past 1" });
            if let Some(words) = wrong {
                tally.difference(format!("{words}: {call:?}"));
            }
        }
    });
}

/// Draws over records of which some hold nothing: those of units that no stage names are not looked at.
fn named(tally: &mut Tally) {
    LENDER.with_borrow_mut(|lender| {
        for (call, wanted) in named_calls() {
            tally.cases += 1;
            tally.count(if wanted == 0 { "draws past a record that holds nothing" } else { "draws refused over a record that holds nothing" });
            let ((number, changed), wrong) = checked(lender, &call);
            if let Some(words) = wrong {
                tally.difference(format!("{words}: {call:?}"));
            } else if number != wanted || (changed == 0) == (wanted == 0) {
                tally.difference(format!("the number {number}, and not {wanted}, and {changed} bytes changed: {call:?}"));
            }
        }
    });
}

/// Faults made on purpose are found: a read beside what is lent, and a write of what is only to be read.
fn controls(tally: &mut Tally) {
    for (writable, side) in [(false, Side::Start), (false, Side::End), (true, Side::Start), (true, Side::End)] {
        for len in [1, 244, 4096, 5000] {
            let mut memory = memory(writable, ROOM);
            let mut control = |fault: Fault, wanted: Ended| {
                tally.cases += 1;
                tally.count("controls");
                let ended = faulted(memory.lend(&vec![7; len], side), fault);
                if ended != wanted {
                    tally.difference(format!("{fault:?} beside {len} bytes, writable {writable}, at {side:?}: {ended:?}, and not {wanted:?}"));
                }
            };
            match valgrind() {
                None => {
                    control(Fault::Read(side), Ended::Killed(SEGMENTATION_FAULT));
                    control(Fault::Write, if writable { Ended::Exited(0) } else { Ended::Killed(SEGMENTATION_FAULT) });
                }
                Some(status) => control(Fault::Read(side), Ended::Exited(status)),
            }
        }
    }
}

/// The list of functions is the header's: their names and those of their parameters.
fn header(tally: &mut Tally) {
    let text = include_str!("../../../../include/tilefringe.h");
    let declared = text.lines().map(str::trim).collect::<Vec<_>>().join(" ");
    let mut found = Vec::new();
    for declaration in declared.split(';').filter(|d| d.contains(" tf_") && d.ends_with(')')) {
        let open = declaration.rfind('(').expect("a declaration has parameters");
        let name = declaration[..open].rsplit(' ').next().expect("a name");
        let last = |p: &str| p.rsplit([' ', '*']).next().unwrap_or("").to_string();
        let mut parameters: Vec<String> = declaration[open + 1..declaration.len() - 1].split(',').map(last).collect();
        parameters.sort();
        found.push((name.to_string(), parameters));
    }
    let listed = FUNCTIONS.iter().map(|f| {
        let mut parameters: Vec<String> = f.numbers.iter().map(|(name, _)| name.to_string()).collect();
        for (name, how) in f.slices {
            parameters.push(name.to_string());
            if !matches!(how, Use::Number(_)) {
                parameters.push(format!("{name}_len"));
            }
        }
        parameters.sort();
        (f.name.to_string(), parameters)
    });
    tally.cases += 1;
    for (listed, found) in listed.zip(&found) {
        if listed != *found {
            tally.difference(format!("the list has {listed:?}, the header {found:?}"));
        }
    }
    if found.len() != FUNCTIONS.len() {
        tally.difference(format!("the header declares {} functions, and not {}", found.len(), FUNCTIONS.len()));
    }
}

fn run(ctx: &mut Ctx) {
    controls(&mut ctx.tally);
    header(&mut ctx.tally);
    on_crash(crashed);
    named(&mut ctx.tally);
    let mut rng = ctx.rng("switches");
    switches(&mut ctx.tally, &mut rng);
    ctx.floor("draws past a record that holds nothing", 8);
    ctx.floor("draws refused over a record that holds nothing", 12);
    ctx.floor("calls that are done on a record of switches past 1", 2_000);
    ctx.floor("refused calls on a record of switches past 1", 500);
    let list = specials();
    ctx.spread("calls", ctx.cases, 1 << 8, |tally, rng, range| {
        for _ in range {
            let (style, call) = any_call(rng, &list);
            let (number, changed) = tally.case(&call, check, smaller);
            reached(tally, &call, style, number, changed);
        }
    });
    let cases = ctx.cases;
    ctx.tally.add("calls", cases);
    if valgrind().is_none() {
        let mut rng = ctx.rng("largest");
        largest(&mut ctx.tally, &mut rng);
        ctx.floor("slices before a page without rights", 100_000);
        ctx.floor("slices after a page without rights", 100_000);
        ctx.floor("empty slices on a page without rights", 1_000);
    } else {
        ctx.floor("slices in heap blocks of their own", 200_000);
    }
    for function in &FUNCTIONS {
        ctx.floor(function.name, 1_500);
        for number in function.answers {
            ctx.floor(&format!("{} answered {number}", function.name), if *number == 0 { 500 } else { 50 });
        }
        for (name, how) in function.slices {
            if matches!(how, Use::Number(_)) {
                continue;
            }
            ctx.floor(&format!("{}, {name} null", function.name), 100);
            // No call is done without its layouts; a draw may have no stage.
            if !["record", "units", "settings", "vertices"].contains(name) {
                ctx.floor(&format!("{}, {name} null, done", function.name), 20);
            }
        }
    }
    for style in [Style::Right, Style::Damaged, Style::StoresEnd, Style::Any] {
        ctx.floor(words(style), 20_000);
    }
    ctx.floor("calls that change nothing, refused", 50_000);
    ctx.floor("calls that change bytes", 25_000);
    ctx.floor("slices within another that is read", 1_000);
}

fn words(style: Style) -> &'static str {
    match style {
        Style::Right => "right calls",
        Style::Damaged => "right calls with one to three numbers, lengths, bytes or words changed",
        Style::StoresEnd => "calls with a level at the store's end or past it",
        Style::Any => "calls of any numbers, lengths and bytes",
    }
}

fn reached(tally: &mut Tally, call: &Call, style: Style, number: u32, changed: u64) {
    let name = call.about().name;
    tally.count(name);
    tally.count(&format!("{name} answered {number}"));
    tally.count(words(style));
    if changed > 0 {
        tally.count("calls that change bytes");
    } else if number != 0 && call.function != BYTES_PER_TEXEL {
        tally.count("calls that change nothing, refused");
    }
    tally.add("bytes that changed", changed);
    for (slice, (slice_name, _)) in call.slices.iter().zip(call.about().slices) {
        match slice.at {
            At::Null => {
                tally.count(&format!("{name}, {slice_name} null"));
                if number == 0 {
                    tally.count(&format!("{name}, {slice_name} null, done"));
                }
            }
            At::Start | At::End if valgrind().is_some() => tally.count("slices in heap blocks of their own"),
            At::End if slice.bytes.is_empty() => tally.count("empty slices on a page without rights"),
            At::End => tally.count("slices before a page without rights"),
            At::Start => tally.count("slices after a page without rights"),
            At::In(_) => tally.count("slices within another that is read"),
        }
    }
}
