//! The float helpers: Rust's own operations on f32 that raster.rs and texture.rs use, and raster.rs's to_unit and to_byte.
use crate::floats::{class, mixed, specials};
use crate::{shrink, Ctx, Part, Record, Rng, Tally};
use oracle::raster::probe as raster;
use port::floats as port;
use std::hint::black_box;
use std::ops::Range;

pub const PART: Part = Part {
    name: "floats",
    cases: 2_000_000,
    run,
    record: Some(record),
};

/// An answer of any helper: a float by its bits (one NaN), a truth as 0 or 1, a number, or -1 - n where `below`.
#[derive(Clone, Copy, Debug, PartialEq, Eq)]
struct Answer {
    below: bool,
    n: u64,
}

trait Told {
    fn told(self) -> Answer;
}

impl Told for f32 {
    fn told(self) -> Answer {
        let bits = if self.is_nan() { 0x7fc0_0000 } else { self.to_bits() };
        Answer { below: false, n: u64::from(bits) }
    }
}

impl Told for bool {
    fn told(self) -> Answer {
        Answer { below: false, n: u64::from(self) }
    }
}

impl Told for u8 {
    fn told(self) -> Answer {
        Answer { below: false, n: u64::from(self) }
    }
}

impl Told for u32 {
    fn told(self) -> Answer {
        Answer { below: false, n: u64::from(self) }
    }
}

impl Told for i64 {
    fn told(self) -> Answer {
        Answer { below: self < 0, n: if self < 0 { (-1 - self) as u64 } else { self as u64 } }
    }
}

impl Told for i32 {
    fn told(self) -> Answer {
        i64::from(self).told()
    }
}

impl Told for port::Whole {
    fn told(self) -> Answer {
        Answer { below: self.below, n: self.n }
    }
}

/// A helper of one operand.
struct Helper {
    code: u8,
    name: &'static str,
    rust: fn(f32) -> Answer,
    port: fn(f32) -> Answer,
    /// The first of these bit patterns on which the two sides differ.
    first_difference: fn(Range<u64>) -> Option<u64>,
}

macro_rules! helper {
    ($code:expr, $name:expr, |$x:ident| $rust:expr, $port:expr) => {{
        fn rust($x: f32) -> Answer {
            $rust.told()
        }
        fn port_($x: f32) -> Answer {
            $port.told()
        }
        Helper {
            code: $code,
            name: $name,
            rust,
            port: port_,
            first_difference: |range| {
                range.into_iter().find(|&bits| {
                    let x = f32::from_bits(bits as u32);
                    rust(x) != port_(x)
                })
            },
        }
    }};
}

fn helpers() -> Vec<Helper> {
    vec![
        helper!(3, "abs", |x| x.abs(), port::probe_abs(x)),
        helper!(4, "from_bits", |x| x, port::probe_from_bits(x.to_bits())),
        helper!(5, "floor", |x| x.floor(), port::probe_floor(x)),
        helper!(6, "ceil", |x| x.ceil(), port::probe_ceil(x)),
        helper!(7, "round", |x| x.round(), port::probe_round(x)),
        helper!(8, "to_unit", |x| raster::to_unit(x.to_bits() as u8), port::probe_to_unit(x.to_bits() as u8)),
        helper!(10, "is_nan", |x| x.is_nan(), port::probe_is_nan(x)),
        helper!(11, "is_finite", |x| x.is_finite(), port::probe_is_finite(x)),
        helper!(12, "is_bounded", |x| x.is_finite() && x.abs() <= 1048576.0, port::probe_is_bounded(x)),
        helper!(13, "saturating_u8", |x| x as u8, port::probe_saturating_u8(x)),
        helper!(14, "saturating_u32", |x| x as u32, port::probe_saturating_u32(x)),
        helper!(15, "to_byte", |x| raster::to_byte(x), port::probe_to_byte(x)),
        // The last step of texture.rs's sample_linear_level, and of its mixing of two levels.
        helper!(16, "rounded_byte", |x| x.round().clamp(0.0, 255.0) as u8, port::probe_rounded_byte(x)),
        helper!(20, "i32 of the floor", |x| x.floor() as i32, port::saturating_i32(port::probe_floor(x))),
        helper!(21, "i32 of the ceiling", |x| x.ceil() as i32, port::saturating_i32(port::probe_ceil(x))),
        helper!(22, "i32 of the ceiling, + 1", |x| (x.ceil() as i32).saturating_add(1), port::next_i32(port::saturating_i32(port::probe_ceil(x)))),
        helper!(23, "i64 of the floor", |x| x.floor() as i64, port::saturating_i64(port::probe_floor(x))),
        helper!(24, "i64 of the floor, + 1", |x| (x.floor() as i64).saturating_add(1), port::next_i64(port::saturating_i64(port::probe_floor(x)))),
        helper!(25, "saturating_i32", |x| x as i32, port::saturating_i32(x)),
        helper!(26, "saturating_i64", |x| x as i64, port::saturating_i64(x)),
    ]
}

/// The helpers whose answers are bytes: a sweep must reach all 256.
const BYTES: [&str; 3] = ["saturating_u8", "to_byte", "rounded_byte"];

fn run(ctx: &mut Ctx) {
    pairs(ctx);
    sweep(ctx);
    if ctx.full {
        every_pattern(ctx);
    }
}

fn helper_difference(helper: &Helper, x: f32) -> Option<String> {
    let x = black_box(x);
    let (rust, port) = ((helper.rust)(x), (helper.port)(x));
    (rust != port).then(|| format!("{} of 0x{:08x}: {rust:x?} from the Rust, {port:x?} from the port", helper.name, x.to_bits()))
}

/// One pattern through every helper.
fn try_pattern(tally: &mut Tally, helpers: &[Helper], x: f32) {
    tally.count(class(x));
    for helper in helpers {
        tally.case(&x, |&x| ((), helper_difference(helper, x)), |&x| shrink::float(x));
    }
}

/// How many patterns of each sign and exponent the default sweep tries.
const MANTISSAS: u64 = 2048;

/// The k-th mantissa of an exponent: the ends, then the leading bits, then any.
fn mantissa(k: u64, rng: &mut Rng) -> u32 {
    match k {
        0..128 => k as u32,
        128..256 => 0x007f_ffff - (k - 128) as u32,
        256..1280 => ((k - 256) as u32) << 13,
        _ => rng.u32() & 0x007f_ffff,
    }
}

/// Every sign and exponent with many mantissas; the whole numbers and halves to 70,000; the special floats.
fn sweep(ctx: &mut Ctx) {
    let helpers = helpers();
    ctx.spread("exponents", 512, 16, |tally, rng, range| {
        for top in range {
            tally.count("signs and exponents");
            for k in 0..MANTISSAS {
                try_pattern(tally, &helpers, f32::from_bits((top as u32) << 23 | mantissa(k, rng)));
            }
        }
    });
    ctx.floor("signs and exponents", 512);
    ctx.spread("halves", 280_001, 1 << 13, |tally, _, range| {
        for n in range {
            tally.count("whole numbers and halves");
            try_pattern(tally, &helpers, (n as f32 - 140_000.0) / 2.0);
        }
    });
    for x in specials() {
        try_pattern(&mut ctx.tally, &helpers, x);
    }
    for name in ["NaN", "infinite", "subnormal", "normal"] {
        ctx.floor(name, 2);
    }
    for helper in helpers.iter().filter(|h| BYTES.contains(&h.name)) {
        let mut reached = [false; 256];
        for n in -600i16..=600 {
            reached[(helper.port)(f32::from(n)).n as usize & 0xff] = true;
            reached[(helper.port)(f32::from(n) / 255.0).n as usize & 0xff] = true;
        }
        let name = format!("bytes that {} gave", helper.name);
        ctx.tally.add(&name, reached.iter().filter(|&&r| r).count() as u64);
        ctx.floor(&name, 256);
    }
}

/// All 2^32 bit patterns through every helper of one operand.
fn every_pattern(ctx: &mut Ctx) {
    for helper in helpers() {
        ctx.spread(helper.name, 1 << 32, 1 << 22, |tally, _, range| {
            tally.cases += range.end - range.start;
            tally.add("patterns of the full sweep", range.end - range.start);
            if let Some(bits) = (helper.first_difference)(range) {
                tally.cases -= 1;
                let x = f32::from_bits(bits as u32);
                tally.case(&x, |&x| ((), helper_difference(&helper, x)), |&x| shrink::float(x));
            }
        });
    }
}

/// The operands of a minimum and a maximum, and the second with the third as the ends of a clamp.
type Operands = [f32; 3];

/// The helper's code, its name and both answers, for the helpers of two and three operands.
fn pair_answers(&[a, b, c]: &Operands) -> Vec<(u8, &'static str, Answer, Answer)> {
    let (a, b, c) = (black_box(a), black_box(b), black_box(c));
    let mut list = Vec::with_capacity(3);
    list.push((0, "min", a.min(b).told(), port::probe_min(a, b).told()));
    list.push((1, "max", a.max(b).told(), port::probe_max(a, b).told()));
    // Rust's clamp panics unless the ends are in order.
    if b <= c {
        list.push((2, "clamp", a.clamp(b, c).told(), port::probe_clamp(a, b, c).told()));
    }
    // A minimum or maximum of two zeros may have either sign.
    if a == 0.0 && b == 0.0 {
        list.retain(|&(code, ..)| code == 2);
    }
    list
}

fn pair_difference(operands: &Operands) -> Option<String> {
    let (_, name, rust, port) = pair_answers(operands).into_iter().find(|(_, _, rust, port)| rust != port)?;
    Some(format!("{name}: {rust:x?} from the Rust, {port:x?} from the port"))
}

fn shrink_operands(operands: &Operands) -> Vec<Operands> {
    shrink::each(operands, |&x| shrink::float(x)).into_iter().map(|v| [v[0], v[1], v[2]]).collect()
}

/// Every pair of special floats, then random ones.
fn pairs(ctx: &mut Ctx) {
    let list = specials();
    let n = list.len() as u64;
    ctx.spread("pairs", n * n + ctx.cases, 1 << 15, |tally, rng, range| {
        for i in range {
            let operands = if i < n * n {
                let (a, b) = (list[(i / n) as usize], list[(i % n) as usize]);
                [a, b, a.max(b)]
            } else {
                [mixed(rng, &list), mixed(rng, &list), mixed(rng, &list)]
            };
            let [a, b, c] = operands;
            tally.case(&operands, |o| ((), pair_difference(o)), shrink_operands);
            tally.count("pairs");
            if a.is_nan() || b.is_nan() {
                tally.count("pairs with a NaN");
            }
            if a == 0.0 && b == 0.0 {
                tally.count("pairs of two zeros, whose minimum may be either");
            }
            if b <= c {
                tally.count("clamps");
                tally.count(if a.is_nan() { "clamps of a NaN" } else { "clamps of a number" });
            }
        }
    });
    ctx.floor("clamps of a NaN", 1000);
    ctx.floor_share("pairs with a NaN", "pairs", 1);
    ctx.floor_share("clamps", "pairs", 20);
}

/// An entry: the helper's code, three operands by their bits, whether the answer is below zero, the answer in 8 bytes.
fn entry(record: &mut Record, code: u8, [a, b, c]: Operands, answer: Answer) {
    let mut bytes = vec![code];
    for x in [a, b, c] {
        bytes.extend(x.to_bits().to_le_bytes());
    }
    bytes.push(u8::from(answer.below));
    bytes.extend(answer.n.to_le_bytes());
    record.entry(&bytes);
}

fn record(record: &mut Record) {
    let mut rng = Rng::named(1, "floats/record", 0);
    let list = specials();
    for _ in 0..400 {
        let operands = [mixed(&mut rng, &list), mixed(&mut rng, &list), mixed(&mut rng, &list)];
        for (code, _, rust, _) in pair_answers(&operands) {
            entry(record, code, operands, rust);
        }
    }
    for helper in helpers() {
        for k in 0..100 {
            let x = if k < 50 { rng.pick(&list) } else { mixed(&mut rng, &list) };
            entry(record, helper.code, [x, 0.0, 0.0], (helper.rust)(x));
        }
    }
    // About halves, where a rounding to even, a rounding of x + 1/2, or one rounding for a product and its sum gives another number.
    let near = |x: f32| (-4..=4).map(move |d| f32::from_bits(x.to_bits().wrapping_add_signed(d)));
    for helper in helpers() {
        let told_apart = |x: f32| match helper.name {
            "to_byte" => [x.mul_add(255.0, 0.5) as u8, (x * 255.0).round_ties_even() as u8].iter().any(|&byte| byte != raster::to_byte(x)),
            "round" | "rounded_byte" => [x.round_ties_even(), (x + 0.5).floor()].iter().any(|&y| y != x.round()),
            _ => false,
        };
        for k in -4..255 {
            let half = k as f32 + 0.5;
            for x in near(if helper.name == "to_byte" { half / 255.0 } else { half }).filter(|&x| told_apart(x)) {
                entry(record, helper.code, [x, 0.0, 0.0], (helper.rust)(x));
            }
        }
    }
}
