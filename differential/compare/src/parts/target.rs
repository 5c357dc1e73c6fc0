//! Clears and the 5-6-5 export: what they answer, and every byte and depth that they leave.
use crate::floats::{bounded, mixed, specials};
use crate::{same, shrink, Ctx, Part, Record, Rng, Tally};
use oracle::raster::RenderTarget;
use ::port::target as port;
use ::port::target::Scissor;

pub const PART: Part = Part {
    name: "target",
    cases: 200_000,
    run,
    record: Some(record),
};

#[derive(Clone, Copy, Debug, PartialEq)]
enum Call {
    ClearColor([u8; 4]),
    ClearDepth(f32),
    /// With so many bytes of output.
    Export(usize),
}

/// A call on a target. The lengths may be wrong; contents come from the seed.
#[derive(Clone, Debug)]
struct Asked {
    call: Call,
    width: u32,
    height: u32,
    colors: usize,
    depths: usize,
    scissor: Scissor,
    seed: u64,
}

/// What is lent, before or after a call.
#[derive(Clone, PartialEq)]
struct Lent {
    colors: Vec<u8>,
    depths: Vec<f32>,
    out: Vec<u8>,
}

/// Document 01's checks, read plainly.
fn refusal(asked: &Asked) -> u32 {
    let pixels = u64::from(asked.width) * u64::from(asked.height);
    if asked.width > 4096 || asked.height > 4096 || asked.colors as u64 != 4 * pixels || asked.depths as u64 != pixels {
        return 1;
    }
    if let Call::Export(_) = asked.call {
        return 0;
    }
    if let Some((x, y, w, h)) = asked.scissor {
        if [x, y, w, h].iter().any(|n| !(-8192..=8192).contains(n)) {
            return 2;
        }
    }
    match asked.call {
        Call::ClearDepth(v) if !(v.is_finite() && v.abs() <= 1048576.0) => 4,
        _ => 0,
    }
}

fn lent(asked: &Asked) -> Lent {
    let mut rng = Rng::new(asked.seed);
    let out = if let Call::Export(n) = asked.call { rng.bytes(n) } else { Vec::new() };
    Lent { colors: rng.bytes(asked.colors), depths: (0..asked.depths).map(|_| rng.unit()).collect(), out }
}

fn rust(asked: &Asked, lent: Lent) -> (u32, Lent) {
    let refused = refusal(asked);
    if refused != 0 {
        return (refused, lent);
    }
    let mut out = lent.out;
    let mut target = RenderTarget { width: asked.width, height: asked.height, color: lent.colors, depth: lent.depths };
    match asked.call {
        Call::ClearColor(rgba) => target.clear_color(rgba, asked.scissor),
        Call::ClearDepth(value) => target.clear_depth(value, asked.scissor),
        Call::Export(_) => target.to_rgb565(&mut out),
    }
    (0, Lent { colors: target.color, depths: target.depth, out })
}

fn ported(asked: &Asked, mut lent: Lent) -> (u32, Lent) {
    let Asked { width, height, scissor, .. } = *asked;
    let (colors, depths) = (lent.colors.len(), lent.depths.len());
    let answer = match asked.call {
        Call::ClearColor(rgba) => port::clear_color(&mut lent.colors, depths, width, height, rgba, scissor),
        Call::ClearDepth(value) => port::clear_depth(&mut lent.depths, colors, width, height, value, scissor),
        Call::Export(_) => port::to_rgb565(&lent.colors, depths, width, height, &mut lent.out),
    };
    (answer, lent)
}

/// The answer, how many elements the call changed, and what differs.
fn check(asked: &Asked) -> ((u32, usize), Option<String>) {
    let before = lent(asked);
    let (wanted, rust) = rust(asked, before.clone());
    let (answer, port) = ported(asked, before.clone());
    let changed = port.colors.iter().zip(&before.colors).filter(|(a, b)| a != b).count()
        + port.depths.iter().zip(&before.depths).filter(|(a, b)| a.to_bits() != b.to_bits()).count()
        + port.out.iter().zip(&before.out).filter(|(a, b)| a != b).count();
    let difference = (wanted != answer)
        .then(|| format!("answer {wanted} from document 01, {answer} from the port"))
        .or_else(|| same::bytes("colours", &rust.colors, &port.colors))
        .or_else(|| same::floats("depths", &rust.depths, &port.depths))
        .or_else(|| same::bytes("output", &rust.out, &port.out));
    ((answer, changed), difference)
}

/// Sides and scissor numbers made smaller; the lengths follow the sides where they did.
fn smaller(asked: &Asked) -> Vec<Asked> {
    let pixels = (asked.width * asked.height) as usize;
    let (whole_colors, whole_depths) = (asked.colors == 4 * pixels, asked.depths == pixels);
    let mut list = Vec::new();
    for n in shrink::number(i64::from(asked.width)) {
        list.push(Asked { width: n.max(0) as u32, ..asked.clone() });
    }
    for n in shrink::number(i64::from(asked.height)) {
        list.push(Asked { height: n.max(0) as u32, ..asked.clone() });
    }
    for a in &mut list {
        let pixels = (a.width * a.height) as usize;
        a.colors = if whole_colors { 4 * pixels } else { a.colors };
        a.depths = if whole_depths { pixels } else { a.depths };
    }
    if let Some((x, y, w, h)) = asked.scissor {
        for v in shrink::each(&[x, y, w, h], |&n| shrink::number(i64::from(n)).into_iter().map(|n| n as i32).collect()) {
            list.push(Asked { scissor: Some((v[0], v[1], v[2], v[3])), ..asked.clone() });
        }
    }
    list
}

/// A side: mostly small, some at the limit and past it.
fn side(rng: &mut Rng) -> u32 {
    match rng.below(16) {
        0 => 0,
        1 => 1,
        2..=10 => rng.between(1, 16) as u32,
        _ => rng.between(1, 64) as u32,
    }
}

/// A part of a side; or a start at an edge, near it, past it, or anywhere, and a length that ends at an edge, or not.
fn axis(rng: &mut Rng, side: i32) -> (i32, i32) {
    let edges = [0, 1, -1, side, side - 1, side + 1, -side, 8192, -8192];
    // Often some of the side, its ends left out.
    if side > 2 && rng.chance(1, 2) {
        let start = rng.between(1, i64::from(side) - 2);
        return (start as i32, rng.between(1, i64::from(side) - 1 - start) as i32);
    }
    let start = if rng.chance(1, 2) { rng.pick(&edges) } else { rng.between(-4, i64::from(side) + 4) as i32 };
    let len = match rng.below(6) {
        0 => rng.pick(&edges),
        1 => side - start,
        2 => -start,
        3 => rng.between(-3, 3) as i32,
        _ => rng.between(0, i64::from(side) + 8) as i32,
    };
    (start, len.clamp(-8192, 8192))
}

const PAST: [i32; 7] = [8193, -8193, 10_000, i32::MAX, i32::MIN, i32::MAX - 1, i32::MIN + 1];

fn scissor(rng: &mut Rng, width: u32, height: u32) -> Scissor {
    if rng.chance(1, 6) {
        return None;
    }
    let (x, w) = axis(rng, width.min(4096) as i32);
    let (y, h) = axis(rng, height.min(4096) as i32);
    let mut numbers = [x, y, w, h];
    if rng.chance(1, 10) {
        numbers[rng.below(4) as usize] = rng.pick(&PAST);
    }
    let [x, y, w, h] = numbers;
    Some((x, y, w, h))
}

fn ask(rng: &mut Rng, list: &[f32]) -> Asked {
    let (mut width, mut height) = (side(rng), side(rng));
    // Sides at the limit and one past it, the other side small.
    if rng.chance(1, 40) {
        width = rng.pick(&[4095, 4096, 4097]);
        height = rng.between(0, 2) as u32;
    } else if rng.chance(1, 40) {
        height = rng.pick(&[4095, 4096, 4097]);
        width = rng.between(0, 2) as u32;
    }
    let pixels = width as usize * height as usize;
    let (mut colors, mut depths) = (4 * pixels, pixels);
    if rng.chance(1, 12) {
        colors = (colors as i64 + rng.between(-5, 5)).max(0) as usize;
    }
    if rng.chance(1, 12) {
        depths = (depths as i64 + rng.between(-5, 5)).max(0) as usize;
    }
    // Sides so large that their product wraps 32 bits.
    if rng.chance(1, 60) {
        (width, height) = rng.pick(&[(65_536, 65_536), (u32::MAX, 1), (1 << 31, 2), (u32::MAX, u32::MAX)]);
    }
    let call = match rng.below(3) {
        0 => Call::ClearColor(std::array::from_fn(|_| rng.u8())),
        1 => Call::ClearDepth(if rng.chance(1, 3) { mixed(rng, list) } else { bounded(rng) }),
        _ => Call::Export(match rng.below(4) {
            0 => 2 * pixels,
            1 => (2 * pixels).saturating_sub(rng.below(4) as usize),
            2 => 2 * pixels + rng.below(5) as usize,
            _ => rng.below(2 * pixels as u64 + 4) as usize,
        }),
    };
    Asked { call, width, height, colors, depths, scissor: scissor(rng, width, height), seed: rng.u64() }
}

fn reached(tally: &mut Tally, asked: &Asked, (answer, changed): (u32, usize)) {
    let name = match asked.call {
        Call::ClearColor(_) => "colour clears",
        Call::ClearDepth(_) => "depth clears",
        Call::Export(_) => "exports",
    };
    tally.count(name);
    tally.count(&format!("{name} answered {answer}"));
    if answer != 0 {
        return;
    }
    if asked.width == 0 || asked.height == 0 {
        tally.count("calls on a target with a side of 0");
    }
    if asked.width == 4096 || asked.height == 4096 {
        tally.count("calls on a target side of 4,096");
    }
    if let Call::Export(n) = asked.call {
        let whole = 2 * asked.depths;
        tally.count(match n {
            n if n < whole && n % 2 == 1 => "exports cut within a pair",
            n if n < whole => "exports cut between pairs",
            n if n == whole => "exports that fit",
            _ => "exports with room to spare",
        });
        return;
    }
    match asked.scissor {
        None => tally.count("clears without a scissor"),
        Some((x, y, w, h)) => {
            let (width, height) = (asked.width as i32, asked.height as i32);
            if changed == 0 {
                tally.count("clears that change nothing");
            }
            for (name, past) in [("left", x < 0), ("bottom", y < 0), ("right", x + w > width), ("top", y + h > height)] {
                if past && changed > 0 {
                    tally.count(&format!("clears cut at the {name}"));
                }
            }
            if x > 0 && y > 0 && x + w < width && y + h < height && changed > 0 {
                tally.count("clears of a box inside");
            }
        }
    }
}

fn run(ctx: &mut Ctx) {
    let list = specials();
    ctx.spread("calls", ctx.cases, 1 << 10, |tally, rng, range| {
        for _ in range {
            let asked = ask(rng, &list);
            let got = tally.case(&asked, check, smaller);
            reached(tally, &asked, got);
        }
    });
    every_box(ctx);
    for name in ["colour clears", "depth clears", "exports"] {
        ctx.floor_share(&format!("{name} answered 0"), name, 40);
        ctx.floor(&format!("{name} answered 1"), 1000);
    }
    for name in ["colour clears answered 2", "depth clears answered 2", "depth clears answered 4"] {
        ctx.floor(name, 1000);
    }
    for side in ["left", "bottom", "right", "top"] {
        ctx.floor(&format!("clears cut at the {side}"), 1000);
    }
    for name in [
        "clears of a box inside",
        "clears that change nothing",
        "clears without a scissor",
        "calls on a target with a side of 0",
        "calls on a target side of 4,096",
        "exports cut within a pair",
        "exports cut between pairs",
        "exports that fit",
        "exports with room to spare",
    ] {
        ctx.floor(name, 500);
    }
}

/// Every box of small numbers on every target of up to 4 by 3.
fn every_box(ctx: &mut Ctx) {
    ctx.spread("every box", 5 * 4, 1, |tally, rng, range| {
        for k in range {
            let (width, height) = ((k % 5) as u32, (k / 5) as u32);
            let pixels = (width * height) as usize;
            for x in -2..=6 {
                for y in -2..=5 {
                    for w in -1..=7 {
                        for h in -1..=6 {
                            for call in [Call::ClearColor([1, 2, 3, 4]), Call::ClearDepth(2.0)] {
                                let scissor = Some((x, y, w, h));
                                let asked = Asked { call, width, height, colors: 4 * pixels, depths: pixels, scissor, seed: rng.u64() };
                                tally.case(&asked, check, smaller);
                                tally.count("small boxes on small targets");
                            }
                        }
                    }
                }
            }
        }
    });
}

/// A signed number: whether it is below zero, and its magnitude.
fn signed(bytes: &mut Vec<u8>, n: i32) {
    bytes.push(u8::from(n < 0));
    bytes.extend((n.unsigned_abs() & 0x7fff_ffff).to_le_bytes());
}

/// An entry: the call (0 colour, 1 depth, 2 export), width and height (4 bytes each), whether there is a scissor, its numbers (5 bytes
/// each), the colour's bytes or the depth's bits, the answer, the lengths of colours, depths and output (2 bytes each); then what the
/// call may write and, for an export, what it reads, and then what the Rust left of it.
fn entry(record: &mut Record, asked: &Asked) {
    let before = lent(asked);
    let (answer, after) = rust(asked, before.clone());
    let (number, value) = match asked.call {
        Call::ClearColor(rgba) => (0, rgba),
        Call::ClearDepth(v) => (1, v.to_bits().to_le_bytes()),
        Call::Export(_) => (2, [0; 4]),
    };
    let mut bytes = vec![number];
    bytes.extend(asked.width.to_le_bytes());
    bytes.extend(asked.height.to_le_bytes());
    bytes.push(u8::from(asked.scissor.is_some()));
    let (x, y, w, h) = asked.scissor.unwrap_or_default();
    for n in [x, y, w, h] {
        signed(&mut bytes, n);
    }
    bytes.extend(value);
    bytes.push(answer as u8);
    for n in [before.colors.len(), before.depths.len(), before.out.len()] {
        bytes.extend((n as u16).to_le_bytes());
    }
    let bits = |depths: &[f32]| -> Vec<u8> { depths.iter().flat_map(|d| d.to_bits().to_le_bytes()).collect() };
    match asked.call {
        Call::ClearColor(_) => {
            bytes.extend(&before.colors);
            bytes.extend(&after.colors);
        }
        Call::ClearDepth(_) => {
            bytes.extend(bits(&before.depths));
            bytes.extend(bits(&after.depths));
        }
        Call::Export(_) => {
            bytes.extend(&before.colors);
            bytes.extend(&before.out);
            bytes.extend(&after.out);
        }
    }
    record.entry(&bytes);
}

fn record(record: &mut Record) {
    let mut rng = Rng::named(1, "target/record", 0);
    let list = specials();
    while record.answers() < 1_500 {
        let mut asked = ask(&mut rng, &list);
        if asked.scissor.is_some_and(|(x, y, w, h)| [x, y, w, h].contains(&i32::MIN)) {
            continue;
        }
        if asked.depths <= 64 && asked.colors <= 256 {
            if let Call::Export(n) = asked.call {
                asked.call = Call::Export(n.min(160));
            }
            entry(record, &asked);
        }
    }
}
