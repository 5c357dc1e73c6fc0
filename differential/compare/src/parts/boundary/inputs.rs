//! Calls: right ones, right ones with damage, records at and past the store's end, and numbers and bytes of any kind.
use super::super::draw::inputs::{self, Depths};
use super::super::draw::reading::{top_level, ORDER};
use super::super::texels::{BLOCKS, FORMATS, PACKED, PALETTES};
use crate::floats::{bounded, mixed};
use crate::{shrink, Rng};
use ::port::boundary::*;
use ::port::draw::{Layouts, Level, Record, Settings, Stage};
use ::port::texels::{bytes_per_texel, compressed_image_size};
use std::fmt;

/// Where a slice lies.
#[derive(Clone, Copy, Debug, PartialEq, Eq)]
pub enum At {
    /// A null pointer, for a slice without bytes.
    Null,
    /// Before a page without rights.
    End,
    /// After a page without rights.
    Start,
    /// In the first bytes of another slice that is only read.
    In(usize),
}

#[derive(Clone)]
pub struct Slice {
    pub bytes: Vec<u8>,
    pub at: At,
}

/// A call of a function of the list, with its numbers as bits.
#[derive(Clone)]
pub struct Call {
    pub function: usize,
    pub numbers: Vec<u64>,
    pub slices: Vec<Slice>,
}

impl Call {
    pub fn about(&self) -> &'static Function {
        &FUNCTIONS[self.function]
    }

    /// The number of this name.
    pub fn number(&self, name: &str) -> u64 {
        self.numbers[self.about().numbers.iter().position(|(n, _)| *n == name).expect("a number of the function")]
    }

    /// The bytes of this name.
    pub fn bytes(&self, name: &str) -> &[u8] {
        &self.slices[self.about().slices.iter().position(|(n, _)| *n == name).expect("a slice of the function")].bytes
    }
}

impl fmt::Debug for Call {
    fn fmt(&self, f: &mut fmt::Formatter<'_>) -> fmt::Result {
        write!(f, "{}(", self.about().name)?;
        for ((name, kind), n) in self.about().numbers.iter().zip(&self.numbers) {
            match kind {
                Kind::I32 => write!(f, "{name} {}, ", *n as i32)?,
                Kind::F32 => write!(f, "{name} {}, ", crate::same::shown(f32::from_bits(*n as u32)))?,
                _ => write!(f, "{name} {n}, ")?,
            }
        }
        for ((name, _), slice) in self.about().slices.iter().zip(&self.slices) {
            write!(f, "{name} {:?} {} bytes ", slice.at, slice.bytes.len())?;
            slice.bytes.iter().take(1024).try_for_each(|b| write!(f, "{b:02x}"))?;
            write!(f, "{}", if slice.bytes.len() > 1024 { ".., " } else { ", " })?;
        }
        write!(f, ")")
    }
}

pub fn word(bytes: &[u8], at: usize) -> u32 {
    u32::from_le_bytes(std::array::from_fn(|i| bytes[at + i]))
}

/// How a call is made.
#[derive(Clone, Copy, Debug, PartialEq, Eq)]
pub enum Style {
    Right,
    Damaged,
    StoresEnd,
    Any,
}

// ---- numbers and bytes

const SIDES: [u32; 20] =
    [0, 1, 2, 3, 4, 10, 11, 1023, 1024, 1025, 4095, 4096, 4097, 65_535, 65_536, 1 << 30, i32::MAX as u32, 1 << 31, u32::MAX - 1, u32::MAX];
const SIGNED: [i32; 12] = [0, 1, -1, 8191, 8192, 8193, -8191, -8192, -8193, i32::MAX, i32::MIN, i32::MIN + 1];
const SIZES: [usize; 13] = [
    0,
    1,
    4096,
    4097,
    1 << 31,
    u32::MAX as usize,
    1 << 32,
    1 << 62,
    isize::MAX as usize,
    1 << 63,
    usize::MAX - 3,
    usize::MAX - 1,
    usize::MAX,
];
const NAMES: [u32; 11] = [0x2800, 0x2801, 0x2802, 0x2803, 0x813A, 0x813B, 0x813C, 0x813D, 0x8501, 0x84FD, 0];
const VALUES: [u32; 9] = [0x2600, 0x2601, 0x2700, 0x2701, 0x2702, 0x2703, 0x2901, 0x812F, 0x2900];

pub fn random_bytes(rng: &mut Rng, n: usize) -> Vec<u8> {
    let mut bytes = Vec::with_capacity(n + 8);
    while bytes.len() < n {
        bytes.extend(rng.u64().to_le_bytes());
    }
    bytes.truncate(n);
    bytes
}

/// A number at a limit, or any.
fn odd_number(rng: &mut Rng, kind: Kind, specials: &[f32]) -> u64 {
    match (kind, rng.below(4)) {
        (Kind::U8, _) => u64::from(rng.u8()),
        (Kind::F32, _) => u64::from(mixed(rng, specials).to_bits()),
        (Kind::U32, 0) => u64::from(rng.u32()),
        (Kind::U32, 1) => rng.below(20),
        (Kind::U32, _) => u64::from(rng.pick(&SIDES)),
        (Kind::I32, 0) => u64::from(rng.u32()),
        (Kind::I32, 1) => rng.between(-20, 20) as u32 as u64,
        (Kind::I32, _) => rng.pick(&SIGNED) as u32 as u64,
        (Kind::Size, 0) => rng.u64(),
        (Kind::Size, 1) => rng.below(300),
        (Kind::Size, _) => rng.pick(&SIZES) as u64,
    }
}

/// Where the slices lie: half of them before a page without rights, half after one; some within another that is read too.
fn placed(rng: &mut Rng, call: &mut Call) {
    let slices = call.about().slices;
    for i in 0..slices.len() {
        let number = matches!(slices[i].1, Use::Number(_));
        let null = call.slices[i].bytes.is_empty() && !number && rng.chance(2, 3);
        call.slices[i].at = if null {
            At::Null
        } else if rng.bool() {
            At::Start
        } else {
            At::End
        };
        if slices[i].1 == Use::Read && rng.chance(1, 40) {
            let apart = |j: &usize| slices[*j].1 == Use::Read && !matches!(call.slices[*j].at, At::In(_));
            if let Some(j) = (0..i).find(apart) {
                let mut bytes = call.slices[j].bytes.clone();
                bytes.truncate(call.slices[i].bytes.len());
                call.slices[i] = Slice { bytes, at: At::In(j) };
            }
        }
    }
}

// ---- right calls

fn call(function: usize, numbers: &[u64], slices: Vec<Vec<u8>>) -> Call {
    let slices = slices.into_iter().map(|bytes| Slice { bytes, at: At::End }).collect();
    Call { function, numbers: numbers.to_vec(), slices }
}

fn image_sides(rng: &mut Rng) -> (u32, u32) {
    match rng.below(64) {
        0 => (1024, rng.below(3) as u32),
        1 => (rng.below(3) as u32, 1024),
        2..=5 => (0, rng.below(20) as u32),
        _ => (rng.below(20) as u32, rng.below(20) as u32),
    }
}

fn target_sides(rng: &mut Rng) -> (u32, u32) {
    match rng.below(128) {
        0 => (4096, rng.below(3) as u32),
        1 => (rng.below(3) as u32, 4096),
        2 => (256, 200),
        _ => (rng.below(24) as u32, rng.below(24) as u32),
    }
}

/// A box on or about a target, with its switch.
fn scissor(rng: &mut Rng, width: u32, height: u32) -> [u64; 5] {
    let mut axis = |side: u32| {
        let side = i64::from(side);
        if rng.chance(1, 6) { (rng.between(-8192, 8192), rng.between(-8192, 8192)) } else { (rng.between(-3, side + 1), rng.between(-1, side + 3)) }
    };
    let ((x, w), (y, h)) = (axis(width), axis(height));
    let bits = |n: i64| u64::from(n as i32 as u32);
    [u64::from(rng.pick(&[0, 1, 1, 1, 2, u32::MAX])), bits(x), bits(y), bits(w), bits(h)]
}

/// A record whose levels lie in the store, and the store's length; at the store's end or past it where `ends`.
fn record(rng: &mut Rng, ends: bool) -> (Record, usize) {
    let (mut record, mut end) = inputs::record(rng, 0);
    if rng.chance(1, 12) {
        (record.levels, record.top, end) = (Default::default(), 0, 0);
    }
    let store = end as usize + if rng.chance(1, 4) { rng.below(9) as usize } else { 0 };
    if ends {
        store_end(rng, &mut record, store as u64);
    }
    (record, store)
}

/// Puts a level of the record at the store's end, or past it, or gives it sides at the limit.
fn store_end(rng: &mut Rng, record: &mut Record, store: u64) {
    let k = if rng.bool() { 0 } else { rng.below(11) as usize };
    let level = &mut record.levels[k];
    level.kept = level.kept.max(1);
    if rng.chance(1, 3) {
        (level.width, level.height) = (rng.pick(&SIDES), rng.pick(&SIDES));
    }
    let size = 4 * u128::from(level.width) * u128::from(level.height);
    level.place = match rng.below(6) {
        // Its last byte is the store's, or some bytes before or past it.
        0..=2 => (u128::from(store).saturating_sub(size) as i128 + i128::from(rng.pick(&[0, 0, 0, 1, 2, 3, 4, -1]))).max(0) as u64,
        3 => store + rng.below(2),
        // Place and size add up to 2^64, or about it.
        4 => (0u64.wrapping_sub(size as u64)).wrapping_add(rng.below(9)),
        _ => rng.pick(&SIZES) as u64,
    };
    record.top = if rng.chance(7, 8) { top_level(record) } else { rng.below(12) };
}

fn coordinate(rng: &mut Rng, specials: &[f32]) -> u64 {
    let x = match rng.below(4) {
        0 => mixed(rng, specials),
        1 => bounded(rng),
        _ => rng.float(-1.5, 2.5),
    };
    u64::from(x.to_bits())
}

fn draw(rng: &mut Rng, ends: bool) -> Call {
    let mut input = inputs::drawn(rng, 1);
    if rng.chance(1, 4) {
        let number = rng.pick(&ORDER);
        inputs::spoil(rng, &mut input, number);
    }
    if rng.chance(1, 12) {
        input.units.iter_mut().for_each(|unit| (unit.levels, unit.top) = (Default::default(), 0));
        input.store = 0;
    }
    if ends {
        let unit = input.stages.first().map_or(0, |s| s.unit.min(3)) as usize;
        store_end(rng, &mut input.units[unit], input.store as u64);
    }
    let Layouts { units, settings, stages, vertices } = Layouts::of(&input.units, &input.settings, &input.stages, &input.triangles[0]);
    let depths = match input.start {
        Depths::All(z) => z.to_bits().to_le_bytes().repeat(input.depths),
        Depths::Spread => (0..input.depths).flat_map(|_| rng.unit().to_bits().to_le_bytes()).collect(),
        Depths::Any => random_bytes(rng, 4 * input.depths),
    };
    let (colors, store) = (random_bytes(rng, input.colors), random_bytes(rng, input.store));
    call(DRAW, &[u64::from(input.width), u64::from(input.height)], vec![colors, depths, store, units, settings, stages, vertices])
}

fn right(rng: &mut Rng, function: usize, specials: &[f32], ends: bool) -> Call {
    let wide = |n: u32| u64::from(n);
    match function {
        BYTES_PER_TEXEL => call(function, &plain_codes(rng).map(wide), vec![]),
        DECODE => {
            let ((w, h), [format, ty]) = (image_sides(rng), plain_codes(rng));
            let texels = w as usize * h as usize;
            let spare = if rng.chance(1, 4) { rng.below(9) as usize } else { 0 };
            let data = random_bytes(rng, texels * bytes_per_texel(format, ty) + spare);
            call(function, &[w, h, format, ty].map(wide), vec![data, random_bytes(rng, 4 * texels)])
        }
        DECODE_COMPRESSED => {
            let ((w, h), format) = (image_sides(rng), compressed_code(rng));
            let spare = if rng.chance(1, 4) { rng.below(9) as usize } else { 0 };
            let size = compressed_image_size(format, w, h, 0).1;
            let data = random_bytes(rng, size + spare);
            call(function, &[w, h, format].map(wide), vec![data, random_bytes(rng, 4 * w as usize * h as usize)])
        }
        IMAGE_SIZE => {
            let (w, h) = image_sides(rng);
            call(function, &[compressed_code(rng), w, h].map(wide), vec![random_bytes(rng, 8)])
        }
        SAMPLE => {
            let (record, store) = record(rng, ends);
            let numbers: [u64; 6] = std::array::from_fn(|_| coordinate(rng, specials));
            call(function, &numbers, vec![record.bytes(), random_bytes(rng, store), random_bytes(rng, 4)])
        }
        CLEAR_COLOR | CLEAR_DEPTH => {
            let (w, h) = target_sides(rng);
            let pixels = w as usize * h as usize;
            let mut numbers = vec![(if function == CLEAR_COLOR { pixels } else { 4 * pixels }) as u64, wide(w), wide(h)];
            if function == CLEAR_COLOR {
                numbers.extend((0..4).map(|_| u64::from(rng.u8())));
            } else {
                let value = if rng.chance(1, 12) { mixed(rng, specials) } else { bounded(rng) };
                numbers.push(wide(value.to_bits()));
            }
            numbers.extend(scissor(rng, w, h));
            call(function, &numbers, vec![random_bytes(rng, 4 * pixels)])
        }
        EXPORT => {
            let (w, h) = target_sides(rng);
            let pixels = w as usize * h as usize;
            let out = if rng.bool() { 2 * pixels } else { rng.below(2 * pixels as u64 + 6) as usize };
            call(function, &[pixels as u64, wide(w), wide(h)], vec![random_bytes(rng, 4 * pixels), random_bytes(rng, out)])
        }
        COMPARE_FUNC => call(function, &[0x200 + rng.below(8)], vec![]),
        BLEND_FACTOR => call(function, &[rng.pick(&inputs::FACTORS).0.into()], vec![]),
        NEW_TEXTURE => call(function, &[], vec![random_bytes(rng, 244)]),
        DEFINE => {
            let (record, mut store) = record(rng, ends);
            let (w, h) = image_sides(rng);
            let size = 4 * w as usize * h as usize;
            // Behind all levels, and mostly up to the store's end.
            let place = store;
            store += size + rng.pick(&[0, 0, 0, 5]);
            let level = rng.below(11);
            call(function, &[level, wide(w), wide(h), place as u64], vec![record.bytes(), random_bytes(rng, store), random_bytes(rng, size)])
        }
        PATCH => {
            let (record, store) = record(rng, ends);
            let kept: Vec<usize> = (0..11).filter(|&k| record.is_kept(k)).collect();
            let k = rng.pick(&kept);
            let mut axis = |side: u32| {
                let start = if rng.bool() { 0 } else { rng.below(u64::from(side) + 1) };
                let most = (u64::from(side) - start).min(64);
                (start, if rng.bool() { most } else { rng.below(most + 1) })
            };
            let ((x, w), (y, h)) = (axis(record.levels[k].width), axis(record.levels[k].height));
            let mut len = 4 * w * h + if rng.chance(1, 4) { rng.below(9) } else { 0 };
            if rng.chance(1, 12) {
                len = rng.below(len + 1);
            }
            let patch = random_bytes(rng, len as usize);
            call(function, &[k as u64, x, y, w, h], vec![record.bytes(), random_bytes(rng, store), patch])
        }
        SET_PARAMETER => {
            let record = record(rng, ends).0;
            call(function, &[rng.pick(&NAMES), rng.pick(&VALUES)].map(wide), vec![record.bytes()])
        }
        _ => draw(rng, ends),
    }
}

/// A call of each function that is lent an image or a target, with the largest sides.
pub fn largest_calls(rng: &mut Rng) -> Vec<Call> {
    let (image, target) = (4 * 1024 * 1024, 4 * 4096 * 4096);
    let empty = Record { levels: Default::default(), top: 0, min: 0x2601, mag: 0x2601, wrap_s: 0x2901, wrap_t: 0x2901 };
    let mut full = empty.clone();
    full.levels[0] = Level { kept: 1, width: 1024, height: 1024, place: 0 };
    let float = |x: f32| u64::from(x.to_bits());
    let settings = Settings { viewport: (0, 0, 4096, 4096), ..Settings::default() };
    let stages = [Stage { unit: 0, env: 0x1e01, env_color: [0.0; 4] }];
    let corners = [[-1.0, -1.0], [3.0, -1.0], [-1.0, 3.0]].map(|[x, y]| {
        let mut corner = [0.0; 17];
        (corner[0], corner[1], corner[3], corner[8], corner[9]) = (x, y, 1.0, x, y);
        corner
    });
    let layouts = Layouts::of(&std::array::from_fn(|_| full.clone()), &settings, &stages, &corners);
    let sides = [4096, 4096];
    let mut bytes = |n| random_bytes(rng, n);
    vec![
        call(DECODE, &[1024, 1024, 0x1908, 0x1401], vec![bytes(image), bytes(image)]),
        call(DECODE_COMPRESSED, &[1024, 1024, 0x8C93], vec![bytes(image / 4), bytes(image)]),
        call(DECODE_COMPRESSED, &[1024, 1024, 0x83F3], vec![bytes(image / 4), bytes(image)]),
        call(SAMPLE, &[float(0.9999), float(0.9999), 0, 0, 0, 0], vec![full.bytes(), bytes(image), bytes(4)]),
        call(DEFINE, &[0, 1024, 1024, 0], vec![empty.bytes(), bytes(image), bytes(image)]),
        call(PATCH, &[0, 0, 0, 1024, 1024], vec![full.bytes(), bytes(image), bytes(image)]),
        call(CLEAR_COLOR, &[target as u64 / 4, 4096, 4096, 1, 2, 3, 4, 1, 1, 1, 4096, 4096], vec![bytes(target)]),
        call(CLEAR_DEPTH, &[target as u64, 4096, 4096, float(1.0), 1, 1, 1, 4096, 4096], vec![bytes(target)]),
        call(EXPORT, &[target as u64 / 4, 4096, 4096], vec![bytes(target), bytes(target / 2)]),
        call(DRAW, &sides, vec![bytes(target), bytes(target), bytes(image), layouts.units, layouts.settings, layouts.stages, layouts.vertices]),
    ]
}

/// The record of a layout.
pub fn record_of(bytes: &[u8]) -> Record {
    let long = |at| u64::from(word(bytes, at)) + (u64::from(word(bytes, at + 4)) << 32);
    let level = |k: usize| Level { kept: word(bytes, 20 * k), width: word(bytes, 20 * k + 4), height: word(bytes, 20 * k + 8), place: long(20 * k + 12) };
    let [min, mag, wrap_s, wrap_t] = [228, 232, 236, 240].map(|at| word(bytes, at));
    Record { levels: std::array::from_fn(level), top: long(220), min, mag, wrap_s, wrap_t }
}

/// For each switch past 1 that a byte can be, in each byte of a level's switch in turn: settings of every name, defines of a level at the
/// front and in the middle, a define that is refused, and a patch.
pub fn switched_calls(rng: &mut Rng) -> Vec<Call> {
    let mut list = Vec::new();
    for switch in 2..=255u32 {
        let mut record = Record { levels: Default::default(), top: 3, min: 0x2703, mag: 0x2601, wrap_s: 0x2901, wrap_t: 0x812f };
        for (k, place) in [(0, 0), (1, 256), (2, 320), (3, 336)] {
            record.levels[k] = Level { kept: switch << (8 * ((switch + k as u32) % 4)), width: 8 >> k, height: 8 >> k, place };
        }
        // A kept level that the chain does not reach.
        record.levels[6] = Level { kept: switch.wrapping_mul(0x0101_0101), width: 1, height: 1, place: 340 };
        let store = random_bytes(rng, 344 + 64);
        for pname in NAMES {
            let value: u32 = if pname < 0x2802 { 0x2600 } else { 0x812f };
            list.push(call(SET_PARAMETER, &[u64::from(pname), u64::from(value)], vec![record.bytes()]));
        }
        for (level, side, place) in [(0, 4, 344), (0, 8, 0), (2, 2, 344), (2, 2, 320), (10, 1, 344), (3, 1, 0)] {
            let image = random_bytes(rng, 4 * side as usize * side as usize);
            list.push(call(DEFINE, &[level, side, side, place], vec![record.bytes(), store.clone(), image]));
        }
        list.push(call(PATCH, &[1, 1, 2, 2, 1], vec![record.bytes(), store.clone(), random_bytes(rng, 8)]));
    }
    list
}

/// Draws on a target of 2 by 2 over units of which some are 244 zero bytes, no record, and the number that each is to answer: no stage;
/// a stage that names unit u, whose record stands among three that hold nothing, and one that holds nothing among three that do; stages
/// past the fourth, and a unit above 3.
pub fn named_calls() -> Vec<(Call, u32)> {
    let mut held = Record { levels: Default::default(), top: 0, min: 0x2600, mag: 0x2600, wrap_s: 0x2901, wrap_t: 0x2901 };
    held.levels[0] = Level { kept: 1, width: 1, height: 1, place: 0 };
    let settings = Settings { viewport: (0, 0, 2, 2), ..Settings::default() };
    let corners = [[-1.0, -1.0], [3.0, -1.0], [-1.0, 3.0]].map(|[x, y]| {
        let mut corner = [0.5; 17];
        (corner[0], corner[1], corner[2], corner[3]) = (x, y, 0.0, 1.0);
        corner
    });
    let draw = |named: &[u32], holds: &dyn Fn(usize) -> bool| {
        let stages: Vec<Stage> = named.iter().map(|&unit| Stage { unit, env: 0x1e01, env_color: [0.0; 4] }).collect();
        let mut layouts = Layouts::of(&std::array::from_fn(|_| held.clone()), &settings, &stages, &corners);
        (0..4).filter(|&u| !holds(u)).for_each(|u| layouts.units[244 * u..244 * u + 244].fill(0));
        let depths = 1f32.to_bits().to_le_bytes().repeat(4);
        let Layouts { units, settings, stages, vertices } = layouts;
        call(DRAW, &[2, 2], vec![vec![9; 16], depths, vec![7; 4], units, settings, stages, vertices])
    };
    let mut list = vec![(draw(&[], &|_| false), 0), (draw(&[0, 1, 2, 3], &|_| false), 255)];
    for u in 0..4 {
        list.push((draw(&[u], &|other| other == u as usize), 0));
        list.push((draw(&[u], &|other| other != u as usize), 255));
        list.push((draw(&[u, (u + 1) % 4], &|other| other == u as usize), 255));
        list.push((draw(&[u, u, u, u], &|other| other == u as usize), 0));
        // The fifth stage is not read, and the call is refused for it.
        list.push((draw(&[u, u, u, u, (u + 1) % 4], &|other| other == u as usize), 6));
    }
    for unit in [4, u32::MAX] {
        list.push((draw(&[unit], &|_| false), 6));
    }
    list
}

fn plain_codes(rng: &mut Rng) -> [u32; 2] {
    [rng.pick(&FORMATS), if rng.bool() { 0x1401 } else { rng.pick(&PACKED) }]
}

fn compressed_code(rng: &mut Rng) -> u32 {
    if rng.bool() { rng.pick(&BLOCKS) } else { rng.pick(&PALETTES) }
}

// ---- others

/// One number, length, byte or word changed.
fn damage(rng: &mut Rng, call: &mut Call, specials: &[f32]) {
    let about = call.about();
    let i = rng.below((call.numbers.len() + call.slices.len()) as u64) as usize;
    if i < call.numbers.len() {
        let kind = about.numbers[i].1;
        call.numbers[i] = match rng.below(3) {
            0 if kind == Kind::Size => call.numbers[i].wrapping_add(rng.pick(&[1, u64::MAX])),
            0 if kind == Kind::U32 || kind == Kind::I32 => u64::from((call.numbers[i] as u32).wrapping_add(rng.pick(&[1, u32::MAX]))),
            _ => odd_number(rng, kind, specials),
        };
        return;
    }
    let i = i - call.numbers.len();
    let how = about.slices[i].1;
    let bytes = &mut call.slices[i].bytes;
    let (len, step) = (bytes.len(), how.step());
    match rng.below(8) {
        _ if matches!(how, Use::Number(_)) => {}
        0 => bytes.truncate(len.saturating_sub(step)),
        1 => bytes.extend(random_bytes(rng, step)),
        2 => bytes.clear(),
        3 => {
            let to = rng.below(len as u64 + 40) as usize / step * step;
            let more = random_bytes(rng, to);
            bytes.truncate(to);
            bytes.extend_from_slice(&more[bytes.len()..]);
        }
        _ if len == 0 => {}
        4 => bytes[rng.below(len as u64) as usize] = rng.u8(),
        _ if len < 4 => {}
        _ => {
            let at = 4 * rng.below(len as u64 / 4) as usize;
            let kind = rng.pick(&[Kind::U32, Kind::U32, Kind::I32, Kind::F32]);
            bytes[at..at + 4].copy_from_slice(&(odd_number(rng, kind, specials) as u32).to_le_bytes());
        }
    }
}

/// Numbers and bytes of any kind; layouts often of their length.
fn any(rng: &mut Rng, function: usize, specials: &[f32]) -> Call {
    let numbers: Vec<u64> = FUNCTIONS[function].numbers.iter().map(|&(_, kind)| odd_number(rng, kind, specials)).collect();
    let slices = FUNCTIONS[function].slices.iter().map(|&(name, how)| {
        let layout = match name {
            "record" => Some(244),
            "units" => Some(976),
            "settings" => Some(144),
            "stages" => Some(24 * rng.below(6) as usize),
            "vertices" => Some(204),
            _ => None,
        };
        let len = match (how, layout, rng.below(8)) {
            (Use::Number(n), ..) => n,
            (_, Some(n), 0..=4) => n,
            (_, _, 5) => 0,
            (_, _, 6) => rng.below(5000) as usize,
            _ => rng.below(300) as usize,
        };
        let step = how.step();
        random_bytes(rng, len / step * step)
    });
    let slices = slices.collect();
    call(function, &numbers, slices)
}

/// How often each function is called, of 64.
const TURNS: [usize; 64] = {
    let mut list = [DRAW; 64];
    let others = [
        (BYTES_PER_TEXEL, 2),
        (DECODE, 6),
        (DECODE_COMPRESSED, 6),
        (IMAGE_SIZE, 2),
        (SAMPLE, 5),
        (CLEAR_COLOR, 4),
        (CLEAR_DEPTH, 4),
        (EXPORT, 4),
        (COMPARE_FUNC, 1),
        (BLEND_FACTOR, 1),
        (NEW_TEXTURE, 2),
        (DEFINE, 7),
        (PATCH, 7),
        (SET_PARAMETER, 3),
    ];
    let (mut i, mut at) = (0, 0);
    while i < others.len() {
        let mut n = 0;
        while n < others[i].1 {
            list[at] = others[i].0;
            at += 1;
            n += 1;
        }
        i += 1;
    }
    list
};

pub fn any_call(rng: &mut Rng, specials: &[f32]) -> (Style, Call) {
    let function = rng.pick(&TURNS);
    let style = match rng.below(16) {
        0..=4 => Style::Right,
        5..=10 => Style::Damaged,
        11 | 12 => Style::StoresEnd,
        _ => Style::Any,
    };
    let ends = style == Style::StoresEnd || (style == Style::Damaged && rng.chance(1, 4));
    let mut call = if style == Style::Any { any(rng, function, specials) } else { right(rng, function, specials, ends) };
    if style == Style::Damaged {
        for _ in 0..rng.between(1, 3) {
            damage(rng, &mut call, specials);
        }
    }
    placed(rng, &mut call);
    (style, call)
}

/// Smaller numbers, shorter slices, bytes that are 0.
pub fn smaller(call: &Call) -> Vec<Call> {
    let about = call.about();
    let mut list = Vec::new();
    for (i, &n) in call.numbers.iter().enumerate() {
        let less: Vec<u64> = match about.numbers[i].1 {
            Kind::F32 => shrink::float(f32::from_bits(n as u32)).into_iter().map(|x| u64::from(x.to_bits())).collect(),
            Kind::I32 => shrink::number(i64::from(n as i32)).into_iter().map(|n| n as u32 as u64).collect(),
            _ => [0, 1, n / 2, n.saturating_sub(1)].into_iter().filter(|&m| m < n).collect(),
        };
        for m in less {
            let mut smaller = call.clone();
            smaller.numbers[i] = m;
            list.push(smaller);
        }
    }
    for (i, &(_, how)) in about.slices.iter().enumerate() {
        let (slice, step) = (&call.slices[i], how.step());
        // Another slice may lie in this one.
        if call.slices.iter().any(|s| s.at == At::In(i)) || matches!(slice.at, At::In(_)) {
            let mut apart = call.clone();
            apart.slices.iter_mut().filter(|s| matches!(s.at, At::In(_))).for_each(|s| s.at = At::End);
            list.push(apart);
            continue;
        }
        let len = slice.bytes.len();
        if !matches!(how, Use::Number(_)) {
            for n in [0, len / 2, len.saturating_sub(step)].map(|n| n / step * step).into_iter().filter(|&n| n < len) {
                let mut smaller = call.clone();
                smaller.slices[i].bytes.truncate(n);
                list.push(smaller);
            }
        }
        for part in [1, 2, 4, 16, 64, 256] {
            let piece = len.div_ceil(part).max(1);
            for at in (0..len).step_by(piece).filter(|&at| slice.bytes[at..(at + piece).min(len)].iter().any(|&b| b != 0)) {
                let mut smaller = call.clone();
                smaller.slices[i].bytes[at..(at + piece).min(len)].fill(0);
                list.push(smaller);
            }
        }
    }
    list
}
