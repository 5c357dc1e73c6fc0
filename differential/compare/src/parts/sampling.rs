//! Samples: at fixed levels byte for byte with texture.rs's `sample_filter`; the level of detail against whole numbers; the answer
//! of `sample_with_gradients` as near as document 01 lets it be.
use crate::floats::{mixed, specials};
use crate::{judged, shrink, Ctx, Part, Record, Rng, Tally};
use port::sampler::{layout, probe_q_of, sample, samples, steps, Coordinates, Numbers};

pub const PART: Part = Part {
    name: "sampling",
    cases: 400_000,
    run,
    record: Some(record),
};

// ---- the level of detail, read plainly from document 01

/// A whole number, lowest word first.
#[derive(Clone, PartialEq, Eq)]
struct Big(Vec<u64>);

impl Big {
    fn squared(&self) -> Big {
        let n = self.0.len();
        let mut out = vec![0u64; 2 * n];
        for i in 0..n {
            let mut carry = 0u128;
            for j in 0..n {
                let sum = u128::from(out[i + j]) + u128::from(self.0[i]) * u128::from(self.0[j]) + carry;
                out[i + j] = sum as u64;
                carry = sum >> 64;
            }
            out[i + n] = carry as u64;
        }
        while out.len() > 1 && out[out.len() - 1] == 0 {
            out.pop();
        }
        Big(out)
    }

    fn digits(&self) -> i64 {
        let top = self.0.len() - 1;
        64 * top as i64 + i64::from(64 - self.0[top].leading_zeros())
    }
}

/// The largest n with 2^n <= m^128.
fn log_of_power(m: u64) -> i64 {
    let mut power = Big(vec![m]);
    for _ in 0..7 {
        power = power.squared();
    }
    power.digits() - 1
}

/// The largest whole n with 2^n <= q^128, for a finite q above 1, in whole numbers.
fn largest_n(q: f64) -> u64 {
    let bits = q.to_bits();
    let (exponent, digits) = ((bits >> 52) as i64, bits & ((1 << 52) - 1));
    let n = log_of_power(digits | 1 << 52) + 128 * (exponent - 1075);
    u64::try_from(n).expect("q is above 1")
}

/// The least whole m with m^128 >= 2^(i + 6656): a threshold of the table, in units of 2^-52.
fn threshold(i: i64) -> u64 {
    let (mut low, mut high) = (1u64 << 52, 1u64 << 53);
    while low < high {
        let middle = low + (high - low) / 2;
        // m^128 >= 2^k exactly if the largest n with 2^n <= m^128 is at least k.
        if log_of_power(middle) >= i + 6656 {
            high = middle;
        } else {
            low = middle + 1;
        }
    }
    low
}

/// A pair's squares added in f64: an infinite member makes it infinite, else a NaN one NaN.
fn pair(a: f32, b: f32) -> f64 {
    if a.is_infinite() || b.is_infinite() {
        f64::INFINITY
    } else {
        f64::from(a) * f64::from(a) + f64::from(b) * f64::from(b)
    }
}

fn q_of(width: u32, height: u32, [_, _, dsdx, dtdx, dsdy, dtdy]: Coordinates) -> f64 {
    let (w, h) = (width as f32, height as f32);
    let (x, y) = (pair(dsdx * w, dtdx * h), pair(dsdy * w, dtdy * h));
    match (x.is_nan(), y.is_nan()) {
        (true, _) => y,
        (_, true) => x,
        _ => x.max(y),
    }
}

/// The levels that a sample reads: one, or a level and the next with 256ths of the way.
#[derive(Clone, Copy, Debug, PartialEq)]
enum Levels {
    One(u32),
    Two(u32, u32),
}

/// The levels, and whether the texels are filtered linearly.
fn plan(t: &Shape, p: Coordinates) -> (Levels, bool) {
    let q = q_of(t.width, t.height, p);
    if q.is_nan() || q <= 1.0 {
        return (Levels::One(0), t.mag == 1);
    }
    let linear = t.min % 2 == 1;
    if t.min < 2 {
        return (Levels::One(0), linear);
    }
    let top = 256 * u64::from(t.levels - 1);
    let n = if q.is_infinite() { top } else { largest_n(q).min(top) };
    let levels = match (t.min < 4, n % 256) {
        (true, _) => Levels::One(((n + 128) / 256) as u32),
        (_, 0) => Levels::One((n / 256) as u32),
        (_, part) => Levels::Two((n / 256) as u32, part as u32),
    };
    (levels, linear)
}

// ---- textures

/// A texture with the first levels of its chain.
#[derive(Clone, Debug, PartialEq)]
struct Shape {
    width: u32,
    height: u32,
    /// How many levels, from 1 up to the whole chain.
    levels: u32,
    min: u32,
    mag: u32,
    wrap_s: u32,
    wrap_t: u32,
    seed: u32,
}

impl Shape {
    fn sides(&self, k: u32) -> (u32, u32) {
        ((self.width >> k).max(1), (self.height >> k).max(1))
    }

    fn whole_chain(&self) -> u32 {
        self.width.max(self.height).ilog2() + 1
    }

    fn bytes(&self) -> usize {
        (0..self.levels).map(|k| (self.sides(k).0 * self.sides(k).1 * 4) as usize).sum()
    }

    /// The store: byte i is of a product, so that a replay can make it too.
    fn store(&self) -> Vec<u8> {
        (0..self.bytes() as u64).map(|i| ((i + 1) * u64::from(self.seed) / 65536 % 256) as u8).collect()
    }

    fn numbers(&self) -> Numbers {
        let mut numbers = [0; 49];
        let mut place = 0;
        for k in 0..self.levels {
            let (w, h) = self.sides(k);
            let at = k as usize * 4;
            numbers[at..at + 4].copy_from_slice(&[1, place, w, h]);
            place += w * h * 4;
        }
        numbers[44..].copy_from_slice(&[self.levels - 1, self.min, self.mag, self.wrap_s, self.wrap_t]);
        numbers
    }
}

/// The Rust's texture of a shape, for one of the builds of the Rust.
macro_rules! rust_texture {
    ($o:ident, $shape:expr, $store:expr) => {{
        use $o::texture::{Filter, MinFilter, Texture, Wrap};
        let mut texture = Texture::default();
        let mut at = 0;
        for k in 0..$shape.levels {
            let (w, h) = $shape.sides(k);
            let size = (w * h * 4) as usize;
            texture.define_level(k, w, h, $store[at..at + size].to_vec());
            at += size;
        }
        texture.min_filter = [
            MinFilter::Nearest,
            MinFilter::Linear,
            MinFilter::NearestMipmapNearest,
            MinFilter::LinearMipmapNearest,
            MinFilter::NearestMipmapLinear,
            MinFilter::LinearMipmapLinear,
        ][$shape.min as usize];
        texture.mag_filter = [Filter::Nearest, Filter::Linear][$shape.mag as usize];
        texture.wrap_s = [Wrap::Repeat, Wrap::ClampToEdge][$shape.wrap_s as usize];
        texture.wrap_t = [Wrap::Repeat, Wrap::ClampToEdge][$shape.wrap_t as usize];
        texture
    }};
}

/// What the Rust answers: its texels at the levels that document 01's rule picks, and its own whole answer.
#[derive(Clone, Debug, PartialEq)]
struct Answers {
    at_levels: Vec<[u8; 4]>,
    own: Vec<[u8; 4]>,
}

fn mixed_texels(a: [u8; 4], b: [u8; 4], part: u32) -> [u8; 4] {
    let weight = part as f32 / 256.0;
    std::array::from_fn(|i| (f32::from(a[i]) + (f32::from(b[i]) - f32::from(a[i])) * weight).round().clamp(0.0, 255.0) as u8)
}

fn rust_answers(shape: &Shape, store: &[u8], coords: &[Coordinates]) -> crate::judge::Verdict<Answers> {
    judged!(o => {
        let texture = rust_texture!(o, shape, store);
        let mut answers = Answers { at_levels: Vec::new(), own: Vec::new() };
        for &p in coords {
            let [s, t, dsdx, dtdx, dsdy, dtdy] = p;
            let (levels, linear) = plan(shape, p);
            let filter = if linear { o::texture::Filter::Linear } else { o::texture::Filter::Nearest };
            let level = |k| o::texture::probe::sample_filter(&texture, k, s, t, filter);
            answers.at_levels.push(match levels {
                Levels::One(k) => level(k),
                Levels::Two(k, part) => mixed_texels(level(k), level(k + 1), part),
            });
            answers.own.push(texture.sample_with_gradients(s, t, dsdx, dtdx, dsdy, dtdy));
        }
        answers
    })
}

/// The levels that the Rust reads, from its own log2, and whether it filters their texels linearly.
fn rust_levels(shape: &Shape, [_, _, dsdx, dtdx, dsdy, dtdy]: Coordinates) -> (u32, u32, bool) {
    let (w, h) = (shape.width as f32, shape.height as f32);
    let rho = (dsdx * w).hypot(dtdx * h).max((dsdy * w).hypot(dtdy * h));
    if rho.is_nan() || rho <= 1.0 {
        return (0, 0, shape.mag == 1);
    }
    let linear = shape.min % 2 == 1;
    let lod = rho.log2().clamp(0.0, (shape.levels - 1) as f32);
    match shape.min {
        0 | 1 => (0, 0, linear),
        2 | 3 => ((lod + 0.5).floor() as u32, (lod + 0.5).floor() as u32, linear),
        _ => (lod.floor() as u32, lod.ceil() as u32, linear),
    }
}

// ---- inputs

fn side(rng: &mut Rng) -> u32 {
    match rng.below(16) {
        0 => 1024,
        1 => 1 + rng.below(200) as u32,
        2 => 1 << rng.below(9),
        _ => 1 + rng.below(20) as u32,
    }
}

fn shape(rng: &mut Rng) -> Shape {
    let mut s = Shape {
        width: side(rng),
        height: side(rng),
        levels: 1,
        min: rng.below(6) as u32,
        mag: rng.below(2) as u32,
        wrap_s: rng.below(2) as u32,
        wrap_t: rng.below(2) as u32,
        seed: rng.u32() | 1,
    };
    // A store of at most some 70,000 bytes, for the time that it takes.
    if s.width * s.height > 16_384 {
        if rng.bool() { s.width = 1 + s.width % 16 } else { s.height = 1 + s.height % 16 }
    }
    s.levels = if rng.chance(2, 3) { s.whole_chain() } else { 1 + rng.below(u64::from(s.whole_chain())) as u32 };
    s
}

/// A coordinate along a side: texel edges and centres, halves, huge, negative, NaN, infinite.
fn coordinate(rng: &mut Rng, side: u32, specials: &[f32]) -> f32 {
    let steps = rng.between(-3 * i64::from(side), 4 * i64::from(side));
    let x = match rng.below(8) {
        0 => rng.pick(specials),
        1 => mixed(rng, specials),
        2 | 3 => steps as f32 / side as f32,
        4 => (steps as f32 + 0.5) / side as f32,
        5 => [-0.25, -0.5, -1.0, 0.0, 0.25, 0.5, 0.75, 1.0, 1.5, 2.0][rng.below(10) as usize],
        _ => rng.float(-2.0, 3.0),
    };
    if rng.chance(1, 4) { f32::from_bits(x.to_bits().wrapping_add(1)) } else { x }
}

fn gradient(rng: &mut Rng, side: u32, specials: &[f32]) -> f32 {
    let size = |rng: &mut Rng| 2f32.powf(rng.float(-3.0, 12.0)) / side as f32;
    match rng.below(16) {
        0 => rng.pick(specials),
        1 => mixed(rng, specials),
        2 => 0.0,
        3 => (1u32 << rng.below(11)) as f32 / side as f32,
        4 => -size(rng),
        _ => size(rng),
    }
}

fn coordinates(rng: &mut Rng, shape: &Shape, specials: &[f32]) -> Coordinates {
    let (w, h) = (shape.width, shape.height);
    let flat = rng.chance(1, 4);
    let mut p = [coordinate(rng, w, specials), coordinate(rng, h, specials), 0.0, 0.0, 0.0, 0.0];
    if !flat {
        p[2..].copy_from_slice(&[gradient(rng, w, specials), gradient(rng, h, specials), gradient(rng, w, specials), gradient(rng, h, specials)]);
    }
    // A NaN in each pair: q is NaN only then.
    if !flat && rng.below(64) == 0 {
        p[2] = f32::NAN;
        p[5] = f32::NAN;
    }
    p
}

// ---- the comparison

/// One sample of one texture.
#[derive(Clone, Debug)]
struct Case {
    shape: Shape,
    p: Coordinates,
}

fn smaller(case: &Case) -> Vec<Case> {
    let mut list = Vec::new();
    for (width, height) in [(1, 1), (2, 1), (1, 2), (2, 2), (case.shape.width / 2, case.shape.height), (case.shape.width, case.shape.height / 2)] {
        if width > 0 && height > 0 && width * height < case.shape.width * case.shape.height {
            let mut shape = Shape { width, height, ..case.shape.clone() };
            shape.levels = shape.levels.min(shape.whole_chain());
            list.push(Case { shape, p: case.p });
        }
    }
    list.extend(shrink::each(&case.p, |&x| shrink::float(x)).into_iter().map(|v| Case { shape: case.shape.clone(), p: std::array::from_fn(|i| v[i]) }));
    list
}

fn port_texels(shape: &Shape, store: &[u8], coords: &[Coordinates]) -> Result<Vec<[u8; 4]>, String> {
    let mut out = vec![0; coords.len()];
    match samples(store, &shape.numbers(), coords, &mut out) {
        0 => Ok(out.into_iter().map(u32::to_le_bytes).collect()),
        n => Err(format!("refused by {n}")),
    }
}

fn check(case: &Case) -> Option<String> {
    let store = case.shape.store();
    let rust = rust_answers(&case.shape, &store, &[case.p]).answer.at_levels[0];
    match port_texels(&case.shape, &store, &[case.p]) {
        Ok(texels) if texels[0] == rust => None,
        Ok(texels) => Some(format!("{:?} from the port, {rust:?} from the Rust, levels {:?}", texels[0], plan(&case.shape, case.p))),
        Err(words) => Some(words),
    }
}

const BATCH: u64 = 16;
const FILTERS: [&str; 6] =
    ["Nearest", "Linear", "NearestMipmapNearest", "LinearMipmapNearest", "NearestMipmapLinear", "LinearMipmapLinear"];

fn apart(a: [u8; 4], b: [u8; 4]) -> i32 {
    (0..4).map(|i| (i32::from(a[i]) - i32::from(b[i])).abs()).max().unwrap_or(0)
}

fn batch(tally: &mut Tally, rng: &mut Rng, specials: &[f32]) {
    let shape = shape(rng);
    let store = shape.store();
    let coords: Vec<Coordinates> = (0..BATCH).map(|_| coordinates(rng, &shape, specials)).collect();
    let verdict = rust_answers(&shape, &store, &coords);
    if verdict.overflowed {
        tally.count("textures with a sample on which the Rust overflows");
    }
    let texels = port_texels(&shape, &store, &coords);
    for (i, &p) in coords.iter().enumerate() {
        let case = Case { shape: shape.clone(), p };
        let same = texels.as_ref().is_ok_and(|t| t[i] == verdict.answer.at_levels[i]);
        tally.case(&case, |c| ((), if same { None } else { check(c) }), smaller);
        let (levels, linear) = plan(&shape, p);
        tally.count("samples");
        tally.count(if linear { "samples that filter linearly" } else { "samples of the nearest texel" });
        tally.count(["repeat in s", "clamp in s"][shape.wrap_s as usize]);
        tally.count(["repeat in t", "clamp in t"][shape.wrap_t as usize]);
        if p[0].is_nan() || p[1].is_nan() {
            tally.count("samples at a NaN");
        }
        if (p[0] * shape.width as f32).is_infinite() || (p[1] * shape.height as f32).is_infinite() {
            tally.count("samples at an infinity");
        }
        let q = q_of(shape.width, shape.height, p);
        if q.is_nan() {
            tally.count("q NaN");
        } else if q <= 1.0 {
            tally.count("q at most 1: magnified");
        } else {
            tally.count(&format!("minified by {}", FILTERS[shape.min as usize]));
            if q.is_infinite() {
                tally.count("q infinite");
            }
        }
        if probe_q_of(shape.width, shape.height, p[2], p[3], p[4], p[5]).to_bits() != q.to_bits() && !q.is_nan() {
            tally.difference(format!("q of {case:?}: not {q}"));
        }
        match levels {
            Levels::One(k) => tally.count(&format!("level {k} alone")),
            Levels::Two(k, _) => tally.count(&format!("levels {k} and {}", k + 1)),
        }
        let Ok(texels) = &texels else { continue };
        let difference = apart(texels[i], verdict.answer.own[i]);
        if difference > 0 {
            tally.count("samples whose texel is not that of the Rust's own level of detail");
        }
        let mine = match levels {
            Levels::One(k) => (k, k),
            Levels::Two(k, _) => (k, k + 1),
        };
        let (low, high, rust_linear) = rust_levels(&shape, p);
        let (same_levels, same_filter) = ((low, high) == mine, rust_linear == linear);
        let mipmapped = shape.min >= 2 && q > 1.0;
        if mipmapped {
            tally.count("mipmapped samples");
            if !same_levels {
                tally.count("mipmapped samples whose levels are not the Rust's");
            }
        }
        if !same_filter {
            // The Rust's rho is rounded to 1 and magnified where q is above 1, or the other way round.
            tally.count("samples whose filter is not the Rust's");
            tally.greatest("channel difference where the filter is not the Rust's", f64::from(difference));
        } else if mipmapped {
            let name = if same_levels { "channel difference where levels and filter are the Rust's" } else { "channel difference where the levels are not the Rust's" };
            tally.greatest(name, f64::from(difference));
        } else if difference > 0 && same_levels {
            tally.difference(format!("{case:?}: {:?} from the port, {:?} from the Rust", texels[i], verdict.answer.own[i]));
        }
    }
}

fn run(ctx: &mut Ctx) {
    let list = specials();
    ctx.spread("samples", ctx.cases / BATCH, 64, |tally, rng, range| {
        for _ in range {
            batch(tally, rng, &list);
        }
    });
    for name in ["samples at a NaN", "samples at an infinity", "q NaN", "q infinite"] {
        ctx.floor(name, 1000);
    }
    for filter in FILTERS {
        ctx.floor(&format!("minified by {filter}"), 10_000);
    }
    ctx.floor("textures with a sample on which the Rust overflows", 100);
    for k in 0..10 {
        ctx.floor(&format!("level {k} alone"), 100);
        ctx.floor(&format!("levels {k} and {}", k + 1), 100);
    }
    details(ctx);
    gradients(ctx);
    records(ctx);
}

// ---- n, and the Rust's log2

/// Each threshold with its neighbours at each exponent that a q can have, then any q above 1.
fn details(ctx: &mut Ctx) {
    let thresholds: Vec<u64> = (0..128).map(threshold).collect();
    let near = 128 * 258 * 5;
    ctx.spread("n", near + 900_000, 1 << 12, |tally, rng, range| {
        let qs: Vec<f64> = range
            .map(|i| {
                if i < near {
                    let (entry, exponent, offset) = (i % 128, i / 128 % 258, i / (128 * 258));
                    let m = thresholds[entry as usize] + offset - 2;
                    m as f64 * 2f64.powi(exponent as i32 - 52)
                } else {
                    f64::from_bits((1023 + rng.below(258)) << 52 | rng.u64() >> 12)
                }
            })
            .collect();
        let mut n = vec![0; qs.len()];
        steps(&qs, &mut n);
        for (&q, &n) in qs.iter().zip(&n) {
            tally.cases += 1;
            tally.count("q tried");
            let right = if q > 1.0 && q.is_finite() { largest_n(q) } else { 0 };
            if n != right {
                tally.difference(format!("n of {q} (0x{:x}): {n} from the port, not {right}", q.to_bits()));
            }
        }
    });
    ctx.floor("q tried", 1_000_000);
}

/// The detail n / 256 beside the Rust's log2.
fn gradients(ctx: &mut Ctx) {
    ctx.spread("gradients", 200_000, 1 << 12, |tally, rng, range| {
        for _ in range {
            let s = shape(rng);
            let mut p: Coordinates = [0.0; 6];
            for (i, x) in p.iter_mut().enumerate().skip(2) {
                let side = if i % 2 == 0 { s.width } else { s.height };
                *x = 2f32.powf(rng.float(-2.0, 20.0)) / side as f32;
            }
            let (w, h) = (s.width as f32, s.height as f32);
            let rho = (p[2] * w).hypot(p[3] * h).max((p[4] * w).hypot(p[5] * h));
            let mut n = [0];
            steps(&[probe_q_of(s.width, s.height, p[2], p[3], p[4], p[5])], &mut n);
            if rho <= 1.0 || !rho.is_finite() || n[0] == 0 {
                continue;
            }
            tally.cases += 1;
            tally.count("gradients beside the Rust's log2");
            let apart = f64::from(rho.log2()) - n[0] as f64 / 256.0;
            tally.greatest("log2 above the detail", apart);
            tally.greatest("log2 below the detail", -apart);
            if !(-1e-4..=1.0 / 256.0 + 1e-4).contains(&apart) {
                tally.difference(format!("detail {} / 256 of {p:?} on {w} by {h}, log2 {}", n[0], rho.log2()));
            }
        }
    });
    ctx.floor("gradients beside the Rust's log2", 100_000);
}

// ---- refusal 8

/// Document 01, Draw, 8, read plainly.
fn is_valid(numbers: &Numbers, store: u64) -> bool {
    let level = |k: usize| {
        let n: [u64; 4] = std::array::from_fn(|i| u64::from(numbers[4 * k + i]));
        (k == 0 || n[0] != 0, n[1], n[2], n[3])
    };
    let kept: Vec<(u64, u64, u64, u64)> =
        (0..11).map(level).filter(|l| l.0).map(|(_, place, w, h)| (place, w, h, w * h * 4)).collect();
    for (i, &(place, w, h, size)) in kept.iter().enumerate() {
        if w > 1024 || h > 1024 || place + size > store {
            return false;
        }
        for &(other, _, _, length) in &kept[..i] {
            if size > 0 && length > 0 && place < other + length && other < place + size {
                return false;
            }
        }
    }
    let mut top = 0;
    let (_, _, mut w, mut h) = level(0);
    if w > 0 && h > 0 {
        while top < 10 && (w > 1 || h > 1) {
            let (present, _, x, y) = level(top + 1);
            if !present || x != (w / 2).max(1) || y != (h / 2).max(1) {
                break;
            }
            (w, h, top) = (x, y, top + 1);
        }
    }
    u64::from(numbers[44]) == top as u64
}

/// The call of the C interface: the same answer and texel, and 255 for a layout of another length or with an unknown code.
fn by_layout(tally: &mut Tally, rng: &mut Rng, numbers: &Numbers, store: &[u8], p: Coordinates, answer: u32, texel: u32) {
    const KEPT: u32 = 0x0102_0304;
    let mut bytes = layout(numbers);
    let broken = rng.chance(1, 16);
    if broken {
        match rng.below(3) {
            0 => bytes.push(0),
            1 => bytes.truncate(rng.below(244) as usize),
            _ => bytes[228 + 4 * rng.below(4) as usize] ^= 1 << (3 + rng.below(4)),
        }
    }
    let mut out = KEPT;
    let got = sample(&bytes, store, p, &mut out);
    let right = match (broken, answer) {
        (true, _) => (255, KEPT),
        (_, 0) => (0, texel),
        _ => (answer, KEPT),
    };
    tally.count(&format!("layouts answered {got}"));
    if (got, out) != right {
        tally.difference(format!("{got} and {out:x}, not {} and {:x}, for {numbers:?} over {} bytes", right.0, right.1, store.len()));
    }
}

/// Records that anyone may have made up, and level 0 incomplete.
fn records(ctx: &mut Ctx) {
    let list = specials();
    ctx.spread("records", ctx.cases / 8, 1 << 10, |tally, rng, range| {
        for _ in range {
            let shape = shape(rng);
            let mut numbers = shape.numbers();
            let mut store = shape.store();
            for _ in 0..rng.below(3) {
                let k = rng.below(u64::from(shape.levels)) as usize * 4;
                match rng.below(8) {
                    0 => numbers[44] = rng.below(12) as u32,
                    1 => numbers[k + 1] = numbers[k + 1].wrapping_add_signed(rng.between(-8, 8) as i32) % (1 << 20),
                    2 => numbers[k + 2] = rng.pick(&[0, 1, 2, 1024, 1025]),
                    3 => numbers[k + 3] = rng.pick(&[0, 1, 2, 1024, 1025]),
                    4 => numbers[k] = 0,
                    5 => store.truncate(store.len().saturating_sub(rng.below(6) as usize)),
                    6 => {
                        numbers[2] = 0;
                        numbers[44] = 0;
                    }
                    _ => numbers[rng.below(44) as usize] = rng.below(40) as u32,
                }
            }
            let p = coordinates(rng, &shape, &list);
            let mut out = [0];
            let answer = samples(&store, &numbers, &[p], &mut out);
            tally.cases += 1;
            by_layout(tally, rng, &numbers, &store, p, answer, out[0]);
            let valid = is_valid(&numbers, store.len() as u64);
            tally.count(if valid { "valid records" } else { "records refused by 8" });
            let right = if valid { 0 } else { 8 };
            if answer != right {
                tally.difference(format!("{answer}, not {right}, for {numbers:?} over {} bytes", store.len()));
            }
            if valid && (numbers[2] == 0 || numbers[3] == 0) {
                tally.count("samples of an incomplete level 0");
                if out[0] != 0xffff_ffff {
                    tally.difference(format!("{:x}, not white, for {numbers:?}", out[0]));
                }
            }
        }
    });
    for (answer, least) in [(0, 5_000), (8, 5_000), (255, 1_000)] {
        ctx.floor(&format!("layouts answered {answer}"), least);
    }
    ctx.floor("records refused by 8", 5_000);
    ctx.floor("valid records", 5_000);
    ctx.floor("samples of an incomplete level 0", 500);
}

// ---- the record

/// An entry: the record's 49 numbers and six floats (4 bytes each), the answer's number (4) and the texel (4), then the store.
fn entry(record: &mut Record, numbers: Numbers, p: Coordinates, number: u32, texel: [u8; 4], store: &[u8]) {
    let mut bytes = Vec::new();
    for n in numbers {
        bytes.extend(n.to_le_bytes());
    }
    for x in p {
        bytes.extend(x.to_bits().to_le_bytes());
    }
    bytes.extend(number.to_le_bytes());
    bytes.extend(texel);
    bytes.extend(store);
    record.entry(&bytes);
}

/// Small textures, so that a record holds their stores.
fn small_shape(rng: &mut Rng) -> Shape {
    let mut s = shape(rng);
    s.width = 1 + s.width % 8;
    s.height = 1 + s.height % 8;
    s.levels = 1 + s.levels % s.whole_chain();
    s
}

/// A texture with the first `levels` of its chain, its filters by their numbers, repeated along s and t.
const fn repeated(width: u32, height: u32, levels: u32, filters: [u32; 2], seed: u32) -> Shape {
    Shape { width, height, levels, min: filters[0], mag: filters[1], wrap_s: 0, wrap_t: 0, seed }
}

/// Samples in which another reading of the Rust's lines gives another texel; they were searched for with a changed copy of it.
const TOLD_APART: [(Shape, Coordinates); 19] = [
    // Along y before x.
    (repeated(15, 7, 4, [1, 1], 3_194_298_829), [0.2666667, 1.5000001, 0.0, 0.0, 0.0, 0.0]),
    (repeated(5, 6, 3, [1, 1], 1_994_109_127), [-0.4, 1.2142857, 0.0, 0.0, 0.0, 0.0]),
    (repeated(7, 4, 3, [1, 1], 2_203_452_391), [1.4, -0.5, 0.0, 0.0, 0.0, 0.0]),
    (repeated(3, 4, 3, [1, 1], 2_425_303_515), [1.5333333, 0.0, 0.0, 0.0, 0.0, 0.0]),
    // a (1 - w) + b w, and four texels by four products.
    (repeated(5, 6, 3, [1, 1], 1_994_109_127), [0.06666667, 0.35714287, 0.0, 0.0, 0.0, 0.0]),
    (repeated(5, 1, 3, [5, 1], 1_768_917_639), [0.2, 0.78571427, 0.44313273, 0.0, 0.0, 0.0]),
    (repeated(1, 8, 4, [1, 1], 45_918_529), [0.6, -0.5, 0.0, 0.0, 0.0, 0.0]),
    // A product that is not rounded before its sum.
    (repeated(5, 1, 3, [1, 1], 2_729_207_135), [-0.06666667, 0.0, 0.0, 0.0, 0.0, 0.0]),
    (repeated(5, 1, 3, [5, 1], 2_203_554_587), [1.4, -0.2857143, 0.5555851, 0.0, 0.0, 0.0]),
    (repeated(5, 6, 3, [1, 1], 1_994_109_127), [0.93333334, 0.78571427, 0.0, 0.0, 0.0, 0.0]),
    // s times the width less a half, rounded once.
    (repeated(5, 1, 3, [1, 1], 2_729_207_135), [0.46666667, 0.5714286, 0.0, 0.0, 0.0, 0.0]),
    (repeated(5, 4, 3, [1, 1], 2_829_916_861), [0.46666667, 1.2142857, 0.0, 0.0, 0.0, 0.0]),
    (repeated(3, 7, 3, [1, 1], 1_700_434_437), [0.26666668, 0.2857143, 0.0, 0.0, 0.0, 0.0]),
    // Halves between two levels, to even and not away from 0.
    (repeated(5, 5, 3, [4, 1], 4_028_179_913), [0.55971134, 1.4278042, 0.22490911, 0.0, 0.0, 0.0]),
    (repeated(5, 1, 3, [5, 1], 2_203_554_587), [0.93333334, 1.0, 0.7482432, 0.0, 0.0, 0.0]),
    (repeated(2, 4, 3, [5, 1], 3_481_006_749), [0.6, 1.2857143, 1.494514, 0.0, 0.0, 0.0]),
    // The mix of two levels cut, and not rounded.
    (repeated(1, 2, 2, [5, 1], 3_454_603_885), [-0.06666667, 1.6428572, 1.9088968, 0.0, 0.0, 0.0]),
    (repeated(5, 5, 3, [4, 1], 4_028_179_913), [0.4050033, 0.1556263, 0.6197487, 0.0, 0.0, 0.0]),
    (repeated(8, 2, 4, [4, 1], 774_947_699), [0.2, 0.5714286, 0.6210028, 0.0, 0.0, 0.0]),
];

/// Every eighth entry has a record that is refused: a top level that is not there, or a store that is a byte short.
fn record(record: &mut Record) {
    let mut rng = Rng::named(1, "sampling/record", 0);
    let list = specials();
    for i in 0..1_000 {
        let shape = small_shape(&mut rng);
        let p = coordinates(&mut rng, &shape, &list);
        let (mut numbers, mut store) = (shape.numbers(), shape.store());
        if i % 8 == 0 {
            if rng.bool() {
                numbers[44] += 1;
            } else {
                store.pop();
            }
            entry(record, numbers, p, 8, [0; 4], &store);
        } else {
            let texel = rust_answers(&shape, &store, &[p]).answer.at_levels[0];
            entry(record, numbers, p, 0, texel, &store);
        }
    }
    for (shape, p) in TOLD_APART {
        let store = shape.store();
        let texel = rust_answers(&shape, &store, &[p]).answer.at_levels[0];
        entry(record, shape.numbers(), p, 0, texel, &store);
    }
}
