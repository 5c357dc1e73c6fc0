//! Texture objects: sequences of define_level, patch_level and set_parameter on several textures over one store.
//! What is done is held to texture.rs's Texture; refusals, which the Rust has not, to a plain reading of document 01.
use crate::{shrink, Ctx, Part, Record, Rng};
use oracle::consts::*;
use oracle::texture::{probe, Filter, MinFilter, Texture, Wrap};
use port::texture as port;
use std::collections::BTreeMap;

pub const PART: Part = Part {
    name: "texture",
    cases: 60_000,
    run,
    record: Some(record),
};

const LEVELS: usize = 11;
const TEXTURES: usize = 4;

// ---- a record, as its layout has it

#[derive(Clone, Copy, Debug, PartialEq)]
struct Level {
    kept: bool,
    place: u64,
    width: u32,
    height: u32,
}

impl Level {
    const ABSENT: Level = Level { kept: false, place: 0, width: 0, height: 0 };

    fn size(&self) -> u128 {
        4 * u128::from(self.width) * u128::from(self.height)
    }

    fn end(&self) -> u128 {
        u128::from(self.place) + self.size()
    }

    fn complete(&self) -> bool {
        self.kept && self.width > 0 && self.height > 0
    }

    fn overlaps(&self, other: &Level) -> bool {
        let (a, b) = (u128::from(self.place), u128::from(other.place));
        self.kept && other.kept && self.size() > 0 && other.size() > 0 && a < other.end() && b < self.end()
    }
}

#[derive(Clone, Debug, PartialEq)]
struct Book {
    levels: [Level; LEVELS],
    top: u64,
    min: u32,
    mag: u32,
    wrap_s: u32,
    wrap_t: u32,
}

impl Book {
    fn new() -> Self {
        let mut levels = [Level::ABSENT; LEVELS];
        levels[0].kept = true;
        Self { levels, top: 0, min: GL_NEAREST_MIPMAP_LINEAR, mag: GL_LINEAR, wrap_s: GL_REPEAT, wrap_t: GL_REPEAT }
    }

    fn bytes(&self) -> Vec<u8> {
        let mut out = Vec::with_capacity(port::RECORD);
        for level in &self.levels {
            out.extend(u32::from(level.kept).to_le_bytes());
            out.extend(level.width.to_le_bytes());
            out.extend(level.height.to_le_bytes());
            out.extend(level.place.to_le_bytes());
        }
        out.extend(self.top.to_le_bytes());
        for code in [self.min, self.mag, self.wrap_s, self.wrap_t] {
            out.extend(code.to_le_bytes());
        }
        out
    }

    fn read(bytes: &[u8]) -> Self {
        let word = |at: usize| u32::from_le_bytes(bytes[at..at + 4].try_into().unwrap());
        let long = |at: usize| u64::from_le_bytes(bytes[at..at + 8].try_into().unwrap());
        let mut levels = [Level::ABSENT; LEVELS];
        for (k, level) in levels.iter_mut().enumerate() {
            let at = 20 * k;
            *level = Level { kept: k == 0 || word(at) != 0, width: word(at + 4), height: word(at + 8), place: long(at + 12) };
        }
        Self { levels, top: long(220), min: word(228), mag: word(232), wrap_s: word(236), wrap_t: word(240) }
    }

    /// The codes of filters and wraps have values.
    fn known(&self) -> bool {
        min_filter(self.min).is_some() && filter(self.mag).is_some() && wrap(self.wrap_s).is_some() && wrap(self.wrap_t).is_some()
    }
}

fn min_filter(code: u32) -> Option<MinFilter> {
    match code {
        GL_NEAREST => Some(MinFilter::Nearest),
        GL_LINEAR => Some(MinFilter::Linear),
        GL_NEAREST_MIPMAP_NEAREST => Some(MinFilter::NearestMipmapNearest),
        GL_LINEAR_MIPMAP_NEAREST => Some(MinFilter::LinearMipmapNearest),
        GL_NEAREST_MIPMAP_LINEAR => Some(MinFilter::NearestMipmapLinear),
        GL_LINEAR_MIPMAP_LINEAR => Some(MinFilter::LinearMipmapLinear),
        _ => None,
    }
}

fn filter(code: u32) -> Option<Filter> {
    match code {
        GL_NEAREST => Some(Filter::Nearest),
        GL_LINEAR => Some(Filter::Linear),
        _ => None,
    }
}

fn wrap(code: u32) -> Option<Wrap> {
    match code {
        GL_REPEAT => Some(Wrap::Repeat),
        GL_CLAMP_TO_EDGE => Some(Wrap::ClampToEdge),
        _ => None,
    }
}

// ---- document 01, read plainly

/// Port order 3: walked until the first level that breaks the chain.
fn top(levels: &[Level; LEVELS]) -> u64 {
    if !levels[0].complete() {
        return 0;
    }
    let mut k = 0;
    while (levels[k].width, levels[k].height) != (1, 1) && k + 1 < LEVELS {
        let (last, next) = (levels[k], levels[k + 1]);
        let halved = ((last.width / 2).max(1), (last.height / 2).max(1));
        if !next.complete() || (next.width, next.height) != halved {
            break;
        }
        k += 1;
    }
    k as u64
}

/// 8: past the store, overlapping, a side above 1,024, a wrong top level.
fn valid(book: &Book, store: usize) -> bool {
    let kept: Vec<&Level> = book.levels.iter().filter(|level| level.kept).collect();
    let inside = kept.iter().all(|level| level.end() <= store as u128);
    let sides = kept.iter().all(|level| level.width <= 1024 && level.height <= 1024);
    let apart = (0..kept.len()).all(|i| (0..i).all(|j| !kept[i].overlaps(kept[j])));
    inside && sides && apart && book.top == top(&book.levels)
}

/// The levels that stay where level k is defined.
fn staying(book: &Book, k: usize) -> [Level; LEVELS] {
    let mut levels = book.levels;
    for (i, level) in levels.iter_mut().enumerate() {
        if i == k || (k > 0 && i > k) {
            *level = Level::ABSENT;
        }
    }
    levels
}

/// The faults of a define, each by itself, in the order of 01.
fn define_faults(book: &Book, store: usize, level: u32, width: u32, height: u32, place: usize, bytes: usize) -> Vec<u32> {
    let new = Level { kept: true, place: place as u64, width, height };
    let outside = level > 10;
    let stays = staying(book, if outside { 0 } else { level as usize });
    let mut faults = Vec::new();
    if width > 1024 || height > 1024 || outside {
        faults.push(9);
    }
    if !valid(book, store) {
        faults.push(8);
    }
    if bytes as u128 != new.size() {
        faults.push(11);
    }
    if new.end() > store as u128 || stays.iter().any(|other| other.overlaps(&new)) {
        faults.push(10);
    }
    faults
}

fn patch_faults(book: &Book, store: usize, level: u32, [x, y, width, height]: [u32; 4], bytes: usize) -> Vec<u32> {
    let mut faults = Vec::new();
    if !valid(book, store) {
        faults.push(8);
    }
    let Some(of) = book.levels.get(level as usize).filter(|of| of.kept) else {
        faults.push(12);
        return faults;
    };
    if u64::from(x) + u64::from(width) > u64::from(of.width) || u64::from(y) + u64::from(height) > u64::from(of.height) {
        faults.push(13);
    }
    if (bytes as u128) < 4 * u128::from(width) * u128::from(height) {
        faults.push(11);
    }
    faults
}

fn set_number(pname: u32, value: u32) -> u32 {
    let known = match pname {
        GL_TEXTURE_MIN_FILTER => min_filter(value).is_some(),
        GL_TEXTURE_MAG_FILTER => filter(value).is_some(),
        GL_TEXTURE_WRAP_S | GL_TEXTURE_WRAP_T => wrap(value).is_some(),
        0x813A..=0x813D | 0x8501 => true,
        _ => false,
    };
    if known { 0 } else { 16 }
}

// ---- calls

#[derive(Clone, Debug)]
enum Op {
    Define { level: u32, width: u32, height: u32, place: usize, bytes: usize },
    Patch { level: u32, rect: [u32; 4], bytes: usize },
    Set { pname: u32, value: u32 },
}

/// `damage` changes one word of the layout that the call is lent; the sequence then goes on without the call.
#[derive(Clone, Debug)]
struct Call {
    texture: usize,
    op: Op,
    image: u8,
    damage: Option<(usize, u32)>,
}

#[derive(Clone, Debug)]
struct Input {
    store: usize,
    calls: Vec<Call>,
}

fn image(seed: u8, n: usize) -> Vec<u8> {
    (0..n).map(|i| (i as u8).wrapping_mul(13).wrapping_add(seed)).collect()
}

/// What 01 says of a call: its faults, and the record and store after it.
struct Told {
    faults: Vec<u32>,
    book: Book,
    store: Vec<u8>,
}

fn told(book: &Book, store: &[u8], call: &Call) -> Told {
    let (mut next, mut bytes) = (book.clone(), store.to_vec());
    let faults = match call.op {
        Op::Define { level, width, height, place, bytes: n } => define_faults(book, store.len(), level, width, height, place, n),
        Op::Patch { level, rect, bytes: n } => patch_faults(book, store.len(), level, rect, n),
        Op::Set { pname, value } => Some(set_number(pname, value)).filter(|&n| n > 0).into_iter().collect(),
    };
    if faults.is_empty() {
        match call.op {
            Op::Define { level, width, height, place, bytes: n } => {
                next.levels = staying(book, level as usize);
                next.levels[level as usize] = Level { kept: true, place: place as u64, width, height };
                next.top = top(&next.levels);
                bytes[place..place + n].copy_from_slice(&image(call.image, n));
            }
            Op::Patch { level, rect: [x, y, width, height], bytes: n } => {
                let (of, patch) = (book.levels[level as usize], image(call.image, n));
                for row in 0..height as usize {
                    let from = row * width as usize * 4;
                    let to = of.place as usize + ((y as usize + row) * of.width as usize + x as usize) * 4;
                    let len = width as usize * 4;
                    bytes[to..to + len].copy_from_slice(&patch[from..from + len]);
                }
            }
            Op::Set { pname, value } => match pname {
                GL_TEXTURE_MIN_FILTER => next.min = value,
                GL_TEXTURE_MAG_FILTER => next.mag = value,
                GL_TEXTURE_WRAP_S => next.wrap_s = value,
                GL_TEXTURE_WRAP_T => next.wrap_t = value,
                _ => {}
            },
        }
    }
    Told { faults, book: next, store: bytes }
}

fn port_call(record: &mut [u8], store: &mut [u8], call: &Call) -> u32 {
    match call.op {
        Op::Define { level, width, height, place, bytes } => {
            port::define_level(record, store, level, width, height, place, &image(call.image, bytes))
        }
        Op::Patch { level, rect, bytes } => port::patch_level(record, store, level, rect, &image(call.image, bytes)),
        Op::Set { pname, value } => port::set_parameter(record, pname, value),
    }
}

fn rust_call(texture: &mut Texture, call: &Call) {
    match call.op {
        Op::Define { level, width, height, bytes, .. } => texture.define_level(level, width, height, image(call.image, bytes)),
        Op::Patch { level, rect: [x, y, width, height], bytes } => {
            texture.patch_level(level, x, y, width, height, &image(call.image, bytes)).expect("the Rust takes what 01 takes")
        }
        Op::Set { pname, value } => assert!(texture.set_parameter(pname, value), "the Rust takes what 01 takes"),
    }
}

fn name(op: &Op) -> &'static str {
    match op {
        Op::Define { .. } => "define",
        Op::Patch { .. } => "patch",
        Op::Set { .. } => "set",
    }
}

// ---- one sequence

/// What a sequence reached, by counter.
type Reached = BTreeMap<String, u64>;

fn tell(reached: &mut Reached, what: String) {
    *reached.entry(what).or_insert(0) += 1;
}

/// One texture as each side has it.
struct Both {
    book: Book,
    record: Vec<u8>,
    rust: Texture,
}

/// Answer, record and store of a call against what 01 says of it.
fn against_01(call: &Call, record: &[u8], store: &mut Vec<u8>) -> (u32, Vec<u8>, Told, Option<String>) {
    let book = Book::read(record);
    let mut expected = told(&book, store, call);
    let mut number = expected.faults.first().copied().unwrap_or(0);
    if !book.known() {
        number = 255;
        expected.book = book.clone();
        expected.store.clone_from(store);
    }
    let mut after = record.to_vec();
    let answer = port_call(&mut after, store, call);
    let rewritten = number == 0 && !matches!(call.op, Op::Patch { .. });
    let same = if rewritten { Book::read(&after) == expected.book } else { after == record };
    let difference = if answer != number {
        Some(format!("{}: answer {answer} from the port, {number} by 01", name(&call.op)))
    } else if !same {
        Some(format!("{}: record {:?} from the port, {:?} by 01", name(&call.op), Book::read(&after), expected.book))
    } else {
        crate::same::bytes("store", &expected.store, store)
    };
    (number, after, expected, difference)
}

/// The Rust's texture against the record and the store, at the bytes that `owner` says this texture wrote last.
fn against_rust(both: &Both, texture: usize, store: &[u8], owner: &[u8]) -> Option<String> {
    let book = Book::read(&both.record);
    for k in 0..LEVELS {
        let level = book.levels[k];
        match probe::kept_level(&both.rust, k as u32) {
            None if level.kept => return Some(format!("level {k} is kept by the port, dropped by the Rust")),
            None => {}
            Some(_) if !level.kept => return Some(format!("level {k} is dropped by the port, kept by the Rust")),
            Some((width, height, rgba)) => {
                if (width, height) != (level.width, level.height) {
                    return Some(format!("level {k}: {width} by {height} in the Rust, {} by {} in the port", level.width, level.height));
                }
                for (i, &byte) in rgba.iter().enumerate() {
                    let at = level.place as usize + i;
                    if usize::from(owner[at]) == texture && store[at] != byte {
                        return Some(format!("level {k}: byte {i} is {byte} in the Rust, {} in the port", store[at]));
                    }
                }
            }
        }
    }
    let top = probe::max_mipmap_level(&both.rust);
    if u64::from(top) != book.top {
        return Some(format!("top level {top} in the Rust, {} in the port", book.top));
    }
    let rust = (Some(both.rust.min_filter), Some(both.rust.mag_filter), Some(both.rust.wrap_s), Some(both.rust.wrap_t));
    let mine = (min_filter(book.min), filter(book.mag), wrap(book.wrap_s), wrap(book.wrap_t));
    (rust != mine).then(|| format!("filters and wraps {rust:?} in the Rust, {mine:?} in the port"))
}

fn start(n: usize) -> Vec<u8> {
    (0..n).map(|i| (i as u8).wrapping_mul(7).wrapping_add(3)).collect()
}

/// Counts what a call was and what stood before it.
fn tell_call(reached: &mut Reached, call: &Call, number: u32, before: &Book, expected: &Told) {
    let op = name(&call.op);
    tell(reached, format!("{op} answers {number}"));
    if number != 255 && expected.faults.len() > 1 {
        tell(reached, format!("{op} refused with a later fault too"));
    }
    if number > 0 {
        return;
    }
    if let Op::Define { level, width, height, place, .. } = call.op {
        let k = level as usize;
        if k > 0 && before.levels[k + 1..].iter().any(|l| l.kept) {
            tell(reached, "defines that dropped levels".into());
        }
        if k == 0 && before.levels[1..].iter().any(|l| l.kept) {
            tell(reached, "defines of level 0 under others".into());
        }
        if width * height == 0 && place == expected.store.len() {
            tell(reached, "empty levels at the store's end".into());
        }
        let new = expected.book.levels[k];
        if before.levels.iter().any(|l| l.overlaps(&new)) {
            tell(reached, "freed places used again".into());
        }
        if expected.book.top >= 2 {
            tell(reached, "chains of three or more".into());
        }
    }
}

fn check(input: &Input) -> (Reached, Option<String>) {
    let mut reached = Reached::new();
    let mut store = start(input.store);
    let mut owner = vec![u8::MAX; input.store];
    let mut all: Vec<Both> = (0..TEXTURES).map(|_| Both { book: Book::new(), record: Vec::new(), rust: Texture::default() }).collect();
    for both in &mut all {
        both.record = vec![0xaa; port::RECORD];
        if port::new_texture(&mut both.record) != 0 || both.record != both.book.bytes() {
            return (reached, Some("the default record".into()));
        }
    }
    for (i, call) in input.calls.iter().enumerate() {
        let before = store.clone();
        let mut record = all[call.texture].record.clone();
        if let Some((word, value)) = call.damage {
            record[4 * word..4 * word + 4].copy_from_slice(&value.to_le_bytes());
        }
        let (number, after, expected, difference) = against_01(call, &record, &mut store);
        tell_call(&mut reached, call, number, &Book::read(&record), &expected);
        if let Some(words) = difference {
            return (reached, Some(format!("call {i}, {words}")));
        }
        if call.damage.is_some() {
            tell(&mut reached, "calls on a changed layout".into());
            store = before;
            continue;
        }
        let both = &mut all[call.texture];
        both.record = after;
        if number == 0 {
            rust_call(&mut both.rust, call);
        }
        for (at, who) in owner.iter_mut().enumerate() {
            if written_by(call, number, &Book::read(&both.record), at) {
                if usize::from(*who) != call.texture && *who != u8::MAX {
                    tell(&mut reached, "bytes written over another texture's".into());
                }
                *who = call.texture as u8;
            }
        }
        if let Some(words) = against_rust(&all[call.texture], call.texture, &store, &owner) {
            return (reached, Some(format!("call {i}, {}: {words}", name(&call.op))));
        }
    }
    (reached, None)
}

/// Whether a call that answered `number` wrote the byte, by its level's place alone.
fn written_by(call: &Call, number: u32, book: &Book, at: usize) -> bool {
    if number > 0 {
        return false;
    }
    match call.op {
        Op::Define { place, bytes, .. } => place <= at && at < place + bytes,
        Op::Patch { level, rect: [x, y, width, height], .. } => {
            let of = book.levels[level as usize];
            let Some(offset) = at.checked_sub(of.place as usize) else { return false };
            if of.width == 0 {
                return false;
            }
            let (column, row) = ((offset / 4) as u32 % of.width, (offset / 4) as u32 / of.width);
            x <= column && column < x + width && y <= row && row < y + height
        }
        Op::Set { .. } => false,
    }
}

// ---- making sequences

const SIDES: [u32; 12] = [0, 1, 1, 2, 2, 3, 4, 4, 5, 8, 8, 16];
const LONG_CHAINS: [u32; 5] = [2, 4, 8, 8, 16];
const HUGE: [u32; 6] = [1024, 1025, 65_535, 1 << 30, 1 << 31, u32::MAX];
const NAMES: [u32; 13] = [
    GL_TEXTURE_MIN_FILTER,
    GL_TEXTURE_MAG_FILTER,
    GL_TEXTURE_WRAP_S,
    GL_TEXTURE_WRAP_T,
    0x813A,
    0x813B,
    0x813C,
    0x813D,
    0x8501,
    0x84FD,
    0x813E,
    0x2804,
    0,
];
const VALUES: [u32; 10] = [0x2600, 0x2601, 0x2700, 0x2701, 0x2702, 0x2703, 0x2901, 0x812F, 0x2900, 0x2704];

fn side(rng: &mut Rng) -> u32 {
    if rng.chance(1, 60) { rng.pick(&HUGE) } else { rng.pick(&SIDES) }
}

/// The first place where so many bytes overlap no level that stays, or 0.
fn first_fit(levels: &[Level; LEVELS], size: u128, rng: &mut Rng) -> usize {
    let mut starts: Vec<u128> = levels.iter().filter(|l| l.kept).map(Level::end).collect();
    starts.push(rng.below(4) as u128);
    starts.sort_unstable();
    let free = |at: u128| levels.iter().all(|l| !l.kept || l.size() == 0 || size == 0 || at >= l.end() || u128::from(l.place) >= at + size);
    starts.into_iter().find(|&at| free(at)).unwrap_or(0) as usize
}

fn define(rng: &mut Rng, book: &Book, store: usize) -> Op {
    let kept = book.levels.iter().rposition(|l| l.kept).unwrap_or(0) as u32;
    let level = match rng.below(20) {
        0..6 => 0,
        6..14 => (book.top as u32 + 1).min(10),
        14..16 => kept,
        16..18 => (kept + 1).min(10),
        18 => rng.below(13) as u32,
        _ => rng.pick(&[10, 11, 12, 1 << 31, u32::MAX]),
    };
    let (mut width, mut height) = (side(rng), side(rng));
    if level == 0 && rng.chance(1, 2) {
        (width, height) = (rng.pick(&LONG_CHAINS), rng.pick(&LONG_CHAINS));
    }
    if (1..=10).contains(&level) && rng.chance(3, 4) {
        let last = book.levels[level as usize - 1];
        (width, height) = ((last.width / 2).max(1), (last.height / 2).max(1));
    }
    let size = 4 * u128::from(width) * u128::from(height);
    let stays = staying(book, (level as usize).min(10));
    let place = match rng.below(20) {
        0..12 => first_fit(&stays, size, rng),
        12..15 => rng.below(store as u64 + 5) as usize,
        15..17 => book.levels[(level as usize).min(10)].place as usize,
        17 => store,
        18 => (store as u128).saturating_sub(size) as usize + rng.below(2) as usize,
        _ => rng.pick(&[usize::MAX, usize::MAX - 3, usize::MAX / 2]),
    };
    let right = if size <= 8192 { size as usize } else { 8 };
    let bytes = match rng.below(24) {
        0 => right + 1,
        1 => right.saturating_sub(1),
        2 => right + 4,
        _ => right,
    };
    Op::Define { level, width, height, place, bytes }
}

fn patch(rng: &mut Rng, book: &Book) -> Op {
    let kept: Vec<u32> = (0..LEVELS as u32).filter(|&k| book.levels[k as usize].kept).collect();
    let level = if rng.chance(7, 8) { rng.pick(&kept) } else { rng.pick(&[0, 1, 2, 9, 10, 11, 1 << 31, u32::MAX]) };
    let of = book.levels.get(level as usize).copied().unwrap_or(Level::ABSENT);
    let mut rect = [0; 4];
    for axis in 0..2 {
        let side = u64::from(if axis == 0 { of.width } else { of.height }.min(1024));
        let empty = side == 0 || rng.chance(1, 8);
        let from = if empty { rng.below(side + 1) } else { rng.below(side) };
        rect[axis] = from as u32;
        rect[axis + 2] = if empty { 0 } else { 1 + rng.below(side - from) as u32 };
    }
    if rng.chance(1, 6) {
        let i = rng.below(4) as usize;
        rect[i] = if rng.bool() { rect[i] + 1 } else { rng.pick(&[u32::MAX, 1 << 31, 1 << 16]) };
    }
    let size = 4 * u128::from(rect[2]) * u128::from(rect[3]);
    let right = if size <= 8192 { size as usize } else { 8 };
    let bytes = match rng.below(8) {
        0 => right.saturating_sub(1 + rng.below(4) as usize),
        1 => right + rng.below(9) as usize,
        _ => right,
    };
    Op::Patch { level, rect, bytes }
}

fn set(rng: &mut Rng) -> Op {
    let pname = if rng.chance(1, 30) { rng.u32() } else { rng.pick(&NAMES) };
    let value = if rng.chance(1, 30) { rng.u32() } else { rng.pick(&VALUES) };
    Op::Set { pname, value }
}

/// One word of a layout and another value for it.
fn damage(rng: &mut Rng, book: &Book) -> (usize, u32) {
    let k = if rng.bool() { 0 } else { rng.below(LEVELS as u64) as usize };
    match rng.below(10) {
        0 => (5 * k, rng.below(3) as u32),
        1 | 2 => (5 * k + 1, side(rng)),
        3 => (5 * k + 2, side(rng)),
        4 | 5 => (5 * k + 3, rng.below(300) as u32),
        6 => (5 * k + 4, rng.pick(&[0, 1, u32::MAX])),
        7 => (55, (book.top as u32).wrapping_add(rng.pick(&[1, u32::MAX, 0]))),
        8 => (56, rng.below(2) as u32),
        _ => (57 + rng.below(4) as usize, rng.pick(&VALUES)),
    }
}

fn sequence(rng: &mut Rng, stores: &[usize], calls: usize) -> Input {
    let store = rng.pick(stores);
    let mut books = vec![Book::new(); TEXTURES];
    let mut input = Input { store, calls: Vec::with_capacity(calls) };
    let bytes = start(store);
    for _ in 0..calls {
        let texture = rng.below(TEXTURES as u64) as usize;
        let book = &books[texture];
        let op = match rng.below(20) {
            0..12 => define(rng, book, store),
            12..17 => patch(rng, book),
            _ => set(rng),
        };
        let damage = rng.chance(1, 6).then(|| damage(rng, book));
        let call = Call { texture, op, image: rng.u8(), damage };
        if damage.is_none() {
            books[texture] = told(book, &bytes, &call).book;
        }
        input.calls.push(call);
    }
    input
}

fn smaller(input: &Input) -> Vec<Input> {
    shrink::fewer(&input.calls).into_iter().map(|calls| Input { store: input.store, calls }).collect()
}

fn run(ctx: &mut Ctx) {
    ctx.spread("sequences", ctx.cases, 256, |tally, rng, range| {
        for _ in range {
            let input = sequence(rng, &[0, 3, 16, 64, 300, 1000, 1000, 4000, 4000], 24);
            let reached = tally.case(&input, check, smaller);
            for (what, n) in reached {
                tally.add(&what, n);
            }
        }
    });
    for (what, n) in [
        ("define answers 0", 100_000),
        ("define answers 8", 5_000),
        ("define answers 9", 5_000),
        ("define answers 10", 20_000),
        ("define answers 11", 5_000),
        ("define answers 255", 1_000),
        ("define refused with a later fault too", 5_000),
        ("patch answers 0", 50_000),
        ("patch answers 8", 2_000),
        ("patch answers 11", 5_000),
        ("patch answers 12", 2_000),
        ("patch answers 13", 5_000),
        ("patch refused with a later fault too", 1_000),
        ("set answers 0", 20_000),
        ("set answers 16", 20_000),
        ("defines that dropped levels", 1_000),
        ("defines of level 0 under others", 5_000),
        ("empty levels at the store's end", 1_000),
        ("freed places used again", 5_000),
        ("chains of three or more", 5_000),
        ("bytes written over another texture's", 100_000),
        ("calls on a changed layout", 50_000),
    ] {
        ctx.floor(what, n);
    }
}

// ---- the record

/// A texture of the Rust with the levels of a record, their bytes taken from the store.
fn rust_texture(book: &Book, store: &[u8]) -> Texture {
    let mut texture = Texture::default();
    for k in 0..LEVELS {
        let level = book.levels[k];
        if level.kept {
            let place = level.place as usize;
            texture.define_level(k as u32, level.width, level.height, store[place..place + level.size() as usize].to_vec());
        }
    }
    texture.min_filter = min_filter(book.min).expect("a known code");
    texture.mag_filter = filter(book.mag).expect("a known code");
    texture.wrap_s = wrap(book.wrap_s).expect("a known code");
    texture.wrap_t = wrap(book.wrap_t).expect("a known code");
    texture
}

/// The record and store that the Rust's texture gives, its levels at the places of `book`.
fn from_rust(texture: &Texture, book: &Book, store: &mut [u8]) -> Book {
    let mut out = book.clone();
    for k in 0..LEVELS {
        out.levels[k] = match probe::kept_level(texture, k as u32) {
            None => Level::ABSENT,
            Some((width, height, rgba)) => {
                let place = book.levels[k].place;
                if !rgba.is_empty() {
                    store[place as usize..place as usize + rgba.len()].copy_from_slice(rgba);
                }
                Level { kept: true, place, width, height }
            }
        };
    }
    out.top = u64::from(probe::max_mipmap_level(texture));
    let code = |codes: &[u32], is: &dyn Fn(u32) -> bool| codes.iter().copied().find(|&c| is(c)).expect("a code for each value");
    out.min = code(&VALUES, &|c| min_filter(c) == Some(texture.min_filter));
    out.mag = code(&VALUES, &|c| filter(c) == Some(texture.mag_filter));
    out.wrap_s = code(&VALUES, &|c| wrap(c) == Some(texture.wrap_s));
    out.wrap_t = code(&VALUES, &|c| wrap(c) == Some(texture.wrap_t));
    out
}

/// The checksum of crates/replay.
fn sum(bytes: &[u8]) -> u32 {
    bytes.iter().fold(0u64, |sum, &b| (sum * 257 + u64::from(b) + 1) % 4_294_967_291) as u32
}

/// An entry: the call's kind; five numbers (4 bytes each); the place (8); the length of the image, its seed, the length of
/// the store (4, 1, 4); the answer; the checksums of the record's layout and of the store after it (4 each); the layout before.
fn entry(record: &mut Record, book: &Book, store: usize, call: &Call) {
    let before = start(store);
    let number = told(book, &before, call).faults.first().copied().unwrap_or(0);
    let (mut after, mut bytes) = (book.clone(), before.clone());
    if number == 0 {
        // A setting looks at no level, whatever the record says of them.
        let levels = if matches!(call.op, Op::Set { .. }) { Book::new().levels } else { book.levels };
        let mut texture = rust_texture(&Book { levels, ..book.clone() }, &before);
        rust_call(&mut texture, call);
        if let Op::Define { level, place, .. } = call.op {
            after.levels[level as usize].place = place as u64;
        }
        let rust = from_rust(&texture, &Book { levels: after.levels, ..book.clone() }, &mut bytes);
        after = if matches!(call.op, Op::Set { .. }) { Book { levels: book.levels, top: book.top, ..rust } } else { rust };
    }
    let (kind, numbers, place, n) = match call.op {
        Op::Define { level, width, height, place, bytes } => (0u8, [level, width, height, 0, 0], place, bytes),
        Op::Patch { level, rect: [x, y, width, height], bytes } => (1, [level, x, y, width, height], 0, bytes),
        Op::Set { pname, value } => (2, [pname, value, 0, 0, 0], 0, 0),
    };
    let mut out = vec![kind];
    for number in numbers {
        out.extend(number.to_le_bytes());
    }
    out.extend((place as u64).to_le_bytes());
    out.extend((n as u32).to_le_bytes());
    out.push(call.image);
    out.extend((store as u32).to_le_bytes());
    out.push(number as u8);
    out.extend(sum(&after.bytes()).to_le_bytes());
    out.extend(sum(&bytes).to_le_bytes());
    out.extend(book.bytes());
    record.entry(&out);
}

fn record(record: &mut Record) {
    let mut rng = Rng::named(1, "texture/record", 0);
    for _ in 0..60 {
        let input = sequence(&mut rng, &[0, 16, 64, 300, 1000], 24);
        let mut books = vec![Book::new(); TEXTURES];
        for call in &input.calls {
            let mut book = books[call.texture].clone();
            if let Some((word, value)) = call.damage {
                let mut layout = book.bytes();
                layout[4 * word..4 * word + 4].copy_from_slice(&value.to_le_bytes());
                book = Book::read(&layout);
            }
            // A layout whose codes have no value is no record; what stands in an absent level is ignored.
            if !book.known() {
                continue;
            }
            for level in book.levels.iter_mut().filter(|level| !level.kept) {
                *level = Level::ABSENT;
            }
            entry(record, &book, input.store, call);
            if call.damage.is_none() {
                books[call.texture] = told(&book, &start(input.store), call).book;
            }
        }
    }
}
