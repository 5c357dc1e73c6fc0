//! Demand 3 at run time: lists of calls of every kind by forty guests, run on one shared state and by each guest alone
//! (docs/ISOLATION.md). A plain account of each list says whether it meets the premises and what each call must answer.
use crate::floats::specials;
use crate::{same, shrink, Ctx, Part, Rng, Tally};
use account::{Account, Book};
use ::port::clip::Corner;
use ::port::draw::{self, Layouts, Settings, Stage, Target};
use ::port::target::Scissor;
use ::port::{target, texture};
use std::collections::BTreeMap;
use std::fmt;

mod account;
mod lists;

pub const PART: Part = Part {
    name: "guests",
    cases: 3_000,
    run,
    record: None,
};

/// At most 64: a set of guests is a word of bits.
const GUESTS: usize = 40;
const CALLS: usize = 200;
const WIDTH: u32 = 64;
const HEIGHT: u32 = 40;

/// A box: x, y, width and height, from the bottom left.
type Rect = (i32, i32, i32, i32);

/// A call with its own arguments. A texture is named by its number.
#[derive(Clone, Debug)]
enum Op {
    ClearColor { rgba: [u8; 4], scissor: Scissor },
    ClearDepth { value: f32, scissor: Scissor },
    Draw(Box<Draw>),
    Define { texture: usize, level: u32, width: u32, height: u32, place: usize, image: Vec<u8> },
    Patch { texture: usize, level: u32, rect: [u32; 4], image: Vec<u8> },
    Set { texture: usize, pname: u32, value: u32 },
    New { texture: usize },
}

#[derive(Clone, Debug)]
struct Draw {
    /// The names of the four units' textures.
    units: [usize; 4],
    settings: Settings,
    stages: Vec<Stage>,
    corners: [Corner; 3],
}

#[derive(Clone, Debug)]
struct Turn {
    guest: usize,
    op: Op,
}

/// A list from its start. Colours, depths and store come from the seed; the lengths may be wrong, and 1 refuses the target then.
#[derive(Clone)]
struct List {
    seed: u64,
    width: u32,
    height: u32,
    colors: usize,
    depths: usize,
    store: usize,
    books: Vec<Book>,
    windows: Vec<Rect>,
    turns: Vec<Turn>,
}

impl fmt::Debug for List {
    /// Long lists by their seed alone.
    fn fmt(&self, f: &mut fmt::Formatter<'_>) -> fmt::Result {
        let List { seed, width, height, colors, depths, .. } = self;
        write!(f, "{} calls from seed {seed:#x} on {width} by {height} ({colors} bytes, {depths} depths)", self.turns.len())?;
        if self.turns.len() > 24 {
            return Ok(());
        }
        for Turn { guest, op } in &self.turns {
            write!(f, "\n      guest {guest}, window {:?}: {op:?}", self.windows[*guest])?;
        }
        Ok(())
    }
}

// ---- the machine

/// What the calls share: one target, one store, the records by name.
#[derive(Clone)]
struct State {
    width: u32,
    height: u32,
    colors: Vec<u8>,
    depths: Vec<f32>,
    store: Vec<u8>,
    records: Vec<Vec<u8>>,
}

fn start(list: &List) -> State {
    let mut rng = Rng::new(list.seed);
    let odd = specials();
    let depth = |rng: &mut Rng| if rng.chance(1, 24) { rng.pick(&odd) } else { rng.unit() };
    State {
        width: list.width,
        height: list.height,
        colors: rng.bytes(list.colors),
        depths: (0..list.depths).map(|_| depth(&mut rng)).collect(),
        store: rng.bytes(list.store),
        records: list.books.iter().map(Book::bytes).collect(),
    }
}

/// The call's number, and the count of a draw.
fn call(state: &mut State, op: &Op) -> (u32, u32) {
    let State { width, height, colors, depths, store, records } = state;
    let number = match op {
        Op::ClearColor { rgba, scissor } => target::clear_color(colors, depths.len(), *width, *height, *rgba, *scissor),
        Op::ClearDepth { value, scissor } => target::clear_depth(depths, colors.len(), *width, *height, *value, *scissor),
        Op::Draw(d) => {
            let layouts = Layouts {
                units: d.units.iter().flat_map(|&name| records[name].iter().copied()).collect(),
                settings: d.settings.bytes(),
                stages: d.stages.iter().flat_map(Stage::bytes).collect(),
                vertices: draw::vertices(&d.corners),
            };
            return draw::draw_triangle(&mut Target { colors, depths, width: *width, height: *height }, store, &layouts);
        }
        Op::Define { texture, level, width, height, place, image } => {
            texture::define_level(&mut records[*texture], store, *level, *width, *height, *place, image)
        }
        Op::Patch { texture, level, rect, image } => texture::patch_level(&records[*texture], store, *level, *rect, image),
        Op::Set { texture, pname, value } => texture::set_parameter(&mut records[*texture], *pname, *value),
        Op::New { texture } => texture::new_texture(&mut records[*texture]),
    };
    (number, 0)
}

/// The columns and rows of the target in a box, rows from the bottom: first and one past the last.
fn on_target((x, y, w, h): Rect, width: u32, height: u32) -> Option<[i64; 4]> {
    let cut = |start: i32, len: i32, side: u32| (i64::from(start).max(0), (i64::from(start) + i64::from(len)).min(i64::from(side)));
    let ((left, right), (low, high)) = (cut(x, w, width), cut(y, h, height));
    (left < right && low < high).then_some([left, right, low, high])
}

// ---- one list

/// Counters by name.
type Reached = BTreeMap<String, u64>;

struct Outcome {
    /// Whether each premise holds: windows, boxes, textures, bytes.
    held: [bool; 4],
    /// A call that answers otherwise than document 01, read plainly, says.
    mistold: Option<String>,
    /// Where a guest gets other than alone, or a pixel in no window changed.
    unequal: Option<String>,
    reached: Reached,
}

fn pixel_differs(a: &State, b: &State, p: usize) -> bool {
    a.colors[4 * p..4 * p + 4] != b.colors[4 * p..4 * p + 4] || !same::f32s(a.depths[p], b.depths[p])
}

fn pixel_shown(s: &State, p: usize) -> String {
    format!("{:?} at depth {}", &s.colors[4 * p..4 * p + 4], same::shown(s.depths[p]))
}

fn outcome(list: &List) -> Outcome {
    let begun = start(list);
    let mut account = Account::new(list);
    let mut shared = begun.clone();
    let mut answers = Vec::with_capacity(list.turns.len());
    let mut mistold = None;
    for (i, turn) in list.turns.iter().enumerate() {
        let number = account.step(turn);
        let answer = call(&mut shared, &turn.op);
        account.answered(turn, answer);
        if answer.0 != number && mistold.is_none() {
            mistold = Some(format!("call {i} by guest {}: number {number} from document 01, {} from the port", turn.guest, answer.0));
        }
        answers.push(answer);
    }
    let mut unequal: Option<String> = None;
    let mut tell = |words: String| {
        unequal.get_or_insert(words);
    };
    let fits = account.fits;
    let mut in_window = vec![false; list.depths];
    for guest in 0..GUESTS {
        let mut alone = begun.clone();
        let (mut bill, mut bill_alone, mut calls) = (0u64, 0u64, 0);
        for (i, turn) in list.turns.iter().enumerate().filter(|(_, turn)| turn.guest == guest) {
            let answer = call(&mut alone, &turn.op);
            if answer != answers[i] {
                tell(format!("call {i} by guest {guest}: {:?} (number, count) alone, {:?} shared", answer, answers[i]));
            }
            bill += u64::from(answers[i].1);
            bill_alone += u64::from(answer.1);
            calls += 1;
        }
        if bill != bill_alone {
            tell(format!("guest {guest}'s bill: {bill_alone} alone, {bill} shared"));
        }
        account.tell("guests with calls", u64::from(calls > 0));
        account.tell("bills above 0", u64::from(bill > 0));
        if !fits {
            continue;
        }
        let Some([left, right, low, high]) = on_target(list.windows[guest], list.width, list.height) else { continue };
        let mut changed = 0;
        for row in low..high {
            for column in left..right {
                let p = ((i64::from(list.height) - 1 - row) * i64::from(list.width) + column) as usize;
                in_window[p] = true;
                changed += u64::from(pixel_differs(&begun, &shared, p));
                if pixel_differs(&alone, &shared, p) {
                    let (one, all) = (pixel_shown(&alone, p), pixel_shown(&shared, p));
                    tell(format!("guest {guest}'s column {column}, row {row} from the bottom: {one} alone, {all} shared"));
                }
            }
        }
        account.tell("window pixels that changed", changed);
    }
    if fits {
        let outside: Vec<usize> = (0..list.depths).filter(|&p| !in_window[p]).collect();
        account.tell("pixels in no window", outside.len() as u64);
        if let Some(&p) = outside.iter().find(|&&p| pixel_differs(&begun, &shared, p)) {
            tell(format!("pixel {p}, in no window: {} at the start, {} in the end", pixel_shown(&begun, p), pixel_shown(&shared, p)));
        }
    } else {
        let kept = begun.colors == shared.colors && same::f32_lists(&begun.depths, &shared.depths);
        if !kept {
            tell("a target that 1 refuses has changed".to_string());
        }
    }
    Outcome { held: account.held(), mistold, unequal, reached: account.reached }
}

/// Of a list that meets the premises: nothing is mistold, and each guest gets what it gets alone.
fn check(list: &List) -> ((bool, Reached), Option<String>) {
    let told = outcome(list);
    let met = told.held == [true; 4];
    let difference = told.mistold.or(told.unequal.filter(|_| met));
    ((met, told.reached), difference)
}

fn smaller(list: &List) -> Vec<List> {
    shrink::fewer(&list.turns).into_iter().map(|turns| List { turns, ..list.clone() }).collect()
}

// ---- the run

/// How a control breaks a premise.
#[derive(Clone, Copy, Debug, PartialEq)]
enum Broken {
    Windows,
    Boxes,
    Textures,
    Records,
    Bytes,
}

impl Broken {
    /// The premise's place among those that hold.
    fn premise(self) -> usize {
        match self {
            Broken::Windows => 0,
            Broken::Boxes => 1,
            Broken::Textures | Broken::Records => 2,
            Broken::Bytes => 3,
        }
    }
}

const CONTROLS: [(Broken, &str); 5] = [
    (Broken::Windows, "two windows share a pixel"),
    (Broken::Boxes, "a box is past its window"),
    (Broken::Textures, "a texture is written by another"),
    (Broken::Records, "a record is made new by another"),
    (Broken::Bytes, "a byte is overwritten by another"),
];

fn lists(ctx: &mut Ctx, name: &str, total: u64, fits: bool) {
    let counter = if fits { "lists" } else { "lists on a target that 1 refuses" };
    ctx.spread(name, total, 8, |tally, rng, range| {
        for _ in range {
            let list = lists::list(rng, fits, None);
            let (met, reached) = tally.case(&list, check, smaller);
            tally.count(counter);
            tally.add("calls", list.turns.len() as u64);
            if !met {
                tally.difference(format!("a list that does not meet the premises: {list:?}"));
            }
            for (name, n) in reached {
                tally.add(&name, n);
            }
        }
    });
}

fn control(tally: &mut Tally, list: &List, broken: Broken, name: &str) {
    tally.cases += 1;
    let told = outcome(list);
    if let Some(words) = told.mistold {
        tally.difference(words);
    }
    let mut others = told.held;
    let held = std::mem::replace(&mut others[broken.premise()], true);
    if others != [true; 4] {
        tally.difference(format!("a control that breaks another premise than {broken:?}: {:?}", told.held));
    }
    if !held {
        tally.count(&format!("controls where {name}"));
        if told.unequal.is_some() {
            tally.count(&format!("controls where {name}, found unequal"));
        }
    }
}

fn run(ctx: &mut Ctx) {
    lists(ctx, "lists", ctx.cases, true);
    lists(ctx, "bad targets", ctx.cases.div_ceil(10), false);
    for (broken, name) in CONTROLS {
        ctx.spread(&format!("control {broken:?}"), ctx.cases.div_ceil(10), 8, |tally, rng, range| {
            for _ in range {
                control(tally, &lists::list(rng, true, Some(broken)), broken, name);
            }
        });
        ctx.floor(&format!("controls where {name}"), 200);
        ctx.floor_share(&format!("controls where {name}, found unequal"), &format!("controls where {name}"), 75);
    }
    ctx.floor_share("draws that write pixels", "draws", 50);
    ctx.floor_share("draws that write pixels and read bytes that their guest wrote", "draws that write pixels and read a texture", 25);
    ctx.floor("store bytes that changed hands", 1_000_000);
    ctx.floor("new records of a defined texture", 5_000);
    for name in [
        "draws that write pixels and read bytes that were another's",
        "draws that write pixels and read a record made new",
        "textures that nobody writes, read by several",
        "draws with another's texture in a unit that no stage names",
        "refused calls that name another's texture",
        "draws and clears without a scissor",
        "draws and clears of a box past the target",
        "windows past the target",
        "empty windows",
    ] {
        ctx.floor(name, 2_000);
    }
    for (name, numbers) in [
        ("colour clears", &[0, 1, 2][..]),
        ("depth clears", &[0, 1, 2, 4]),
        ("draws", &[0, 1, 2, 3, 4, 5, 6, 7, 8]),
        ("defines", &[0, 8, 9, 10, 11]),
        ("patches", &[0, 8, 11, 12, 13]),
        ("settings", &[0, 16]),
        ("new records", &[0]),
    ] {
        for n in numbers {
            ctx.floor(&format!("{name} answered {n}"), 1_000);
        }
    }
}
