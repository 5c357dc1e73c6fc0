//! Comparisons, blend factors, texture environments, linear fog, blending and the masked byte, one fragment at a time.
use crate::floats::{mixed, specials};
use crate::{same, shrink, Ctx, Part, Record, Rng, Tally};
use oracle::consts::*;
use oracle::raster::{probe as raster, BlendFactor, CompareFunc, FogMode, PipelineState, TexEnvMode, TextureStage};
use ::port::{settings as port, target};
use std::hint::black_box;

pub const PART: Part = Part {
    name: "settings",
    cases: 2_000_000,
    run,
    record: Some(record),
};

const COMPARISONS: [u32; 8] = [GL_NEVER, GL_LESS, GL_EQUAL, GL_LEQUAL, GL_GREATER, GL_NOTEQUAL, GL_GEQUAL, GL_ALWAYS];
const FACTORS: [u32; 11] = [
    GL_ZERO, GL_ONE, GL_SRC_COLOR, GL_ONE_MINUS_SRC_COLOR, GL_SRC_ALPHA, GL_ONE_MINUS_SRC_ALPHA, GL_DST_ALPHA, GL_ONE_MINUS_DST_ALPHA,
    GL_DST_COLOR, GL_ONE_MINUS_DST_COLOR, GL_SRC_ALPHA_SATURATE,
];
/// By the numbers of the probe.
const ENVIRONMENTS: [(TexEnvMode, &str); 5] = [
    (TexEnvMode::Modulate, "Modulate"),
    (TexEnvMode::Replace, "Replace"),
    (TexEnvMode::Decal, "Decal"),
    (TexEnvMode::Blend, "Blend"),
    (TexEnvMode::Add, "Add"),
];

type Color = [f32; 4];

/// What a fragment's step is asked: its code or codes, and three colours or fewer floats.
#[derive(Clone, Debug)]
struct Asked {
    step: Step,
    codes: [u32; 2],
    colors: [Color; 3],
}

#[derive(Clone, Copy, Debug, PartialEq)]
enum Step {
    Test,
    Resolve,
    Blend,
    TexEnv,
    FogFactor,
    Fogged,
    Masked,
}

const STEPS: [(Step, &str); 7] = [
    (Step::Test, "comparisons"),
    (Step::Resolve, "factors"),
    (Step::Blend, "blends"),
    (Step::TexEnv, "environments"),
    (Step::FogFactor, "fog factors"),
    (Step::Fogged, "fogged colours"),
    (Step::Masked, "masked bytes"),
];

fn linear(start: f32, end: f32, color: Color) -> PipelineState {
    PipelineState { fog: true, fog_mode: FogMode::Linear, fog_start: start, fog_end: end, fog_color: color, ..Default::default() }
}

/// raster_clipped, the blend step: its lines on one fragment.
fn rust_blend(src: BlendFactor, dst: BlendFactor, frag: Color, stored: Color) -> Color {
    let sf = raster::resolve(src, frag, stored);
    let df = raster::resolve(dst, frag, stored);
    [
        (frag[0] * sf[0] + stored[0] * df[0]).clamp(0.0, 1.0),
        (frag[1] * sf[1] + stored[1] * df[1]).clamp(0.0, 1.0),
        (frag[2] * sf[2] + stored[2] * df[2]).clamp(0.0, 1.0),
        (frag[3] * sf[3] + stored[3] * df[3]).clamp(0.0, 1.0),
    ]
}

/// raster_clipped, the fog step: its lines on one fragment.
fn rust_fogged(state: &PipelineState, depth: f32, mut frag: Color) -> Color {
    let f = raster::fog_factor(state, depth);
    for (c, fc) in frag.iter_mut().zip(state.fog_color).take(3) {
        *c = f * *c + (1.0 - f) * fc;
    }
    frag
}

/// A number as the first of four floats.
fn alone(x: f32) -> Color {
    [x, 0.0, 0.0, 0.0]
}

fn rust(asked: &Asked) -> Color {
    let [a, b, c] = black_box(asked.colors);
    match asked.step {
        Step::Test => alone(f32::from(u8::from(CompareFunc::from_enum(asked.codes[0]).unwrap().test(a[0], a[1])))),
        Step::Resolve => raster::resolve(BlendFactor::from_enum(asked.codes[0]).unwrap(), a, b),
        Step::Blend => {
            let factors = asked.codes.map(|code| BlendFactor::from_enum(code).unwrap());
            rust_blend(factors[0], factors[1], a, b)
        }
        Step::TexEnv => {
            let stage = TextureStage { unit: 0, env: ENVIRONMENTS[asked.codes[0] as usize].0, env_color: a };
            raster::apply_tex_env(&stage, b, c)
        }
        Step::FogFactor => alone(raster::fog_factor(&linear(a[0], a[1], b), a[2])),
        Step::Fogged => rust_fogged(&linear(a[0], a[1], b), a[2], c),
        Step::Masked => {
            let stored = a[1].to_bits() as u8;
            alone(f32::from(if asked.codes[0] == 1 { raster::to_byte(a[0]) } else { stored }))
        }
    }
}

fn ported(asked: &Asked) -> Color {
    let [a, b, c] = black_box(asked.colors);
    match asked.step {
        Step::Test => alone(f32::from(u8::from(port::probe_test(asked.codes[0], a[0], a[1])))),
        Step::Resolve => port::resolve(asked.codes[0], a, b),
        Step::Blend => port::blend(asked.codes[0], asked.codes[1], a, b),
        Step::TexEnv => port::tex_env(asked.codes[0], a, b, c),
        Step::FogFactor => alone(port::probe_fog_factor(a[0], a[1], a[2])),
        Step::Fogged => port::fogged(a[0], a[1], a[2], b, c),
        Step::Masked => alone(f32::from(port::probe_masked_byte(asked.codes[0] == 1, a[0], a[1].to_bits() as u8))),
    }
}

/// Whether a zero of the answer comes out of a minimum or maximum of two zeros, whose sign is free.
fn zeros_free(asked: &Asked) -> bool {
    let [a, b, _] = asked.colors;
    match asked.step {
        // f.min(1 - d) of two zeros; blending adds products of it, which keep or lose the sign.
        Step::Resolve | Step::Blend => asked.codes.contains(&GL_SRC_ALPHA_SATURATE) && a[3] == 0.0 && 1.0 - b[3] == 0.0,
        // depth.max(0) of two zeros, taken from an end of zero.
        Step::FogFactor | Step::Fogged => a[2] == 0.0 && a[1] == 0.0,
        _ => false,
    }
}

fn difference(asked: &Asked) -> Option<String> {
    let (rust, port) = (rust(asked), ported(asked));
    let free = zeros_free(asked);
    let at = (0..4).find(|&i| !(same::f32s(rust[i], port[i]) || (free && same::f32s_but_for_zeros(rust[i], port[i]))))?;
    Some(format!("{:?}: channel {at} is {} from the Rust, {} from the port", asked.step, same::shown(rust[at]), same::shown(port[at])))
}

fn smaller(asked: &Asked) -> Vec<Asked> {
    let flat: Vec<f32> = asked.colors.concat();
    shrink::each(&flat, |&x| shrink::float(x))
        .into_iter()
        .map(|v| Asked { colors: [[v[0], v[1], v[2], v[3]], [v[4], v[5], v[6], v[7]], [v[8], v[9], v[10], v[11]]], ..asked.clone() })
        .collect()
}

/// A channel: of a byte, from 0 to 1, a little outside, or any odd float.
fn channel(rng: &mut Rng, kind: u64, list: &[f32]) -> f32 {
    match kind {
        0 => raster::to_unit(rng.u8()),
        1 => rng.float(-0.25, 1.25),
        _ => mixed(rng, list),
    }
}

fn color(rng: &mut Rng, list: &[f32]) -> Color {
    let kind = rng.below(4);
    std::array::from_fn(|_| {
        let kind = if rng.chance(1, 8) { 3 } else { kind };
        channel(rng, kind, list)
    })
}

/// Fog's start, end and depth: ordered, turned about, alike, near one another, or odd.
fn fog_numbers(rng: &mut Rng, list: &[f32]) -> [f32; 3] {
    let start = if rng.chance(1, 4) { mixed(rng, list) } else { rng.float(-10.0, 10.0) };
    let end = match rng.below(4) {
        0 => start,
        1 => start + rng.float(-4e-9, 4e-9),
        2 => start + rng.float(-20.0, 20.0),
        _ => mixed(rng, list),
    };
    let depth = if rng.chance(1, 4) { mixed(rng, list) } else { rng.float(-12.0, 12.0) };
    [start, end, depth]
}

/// The k-th question: steps in turn, and within a step its codes in turn.
fn ask(k: u64, rng: &mut Rng, list: &[f32]) -> Asked {
    let (step, _) = STEPS[(k % 7) as usize];
    let n = k / 7;
    let mut colors = [color(rng, list), color(rng, list), color(rng, list)];
    let codes = match step {
        Step::Test => [COMPARISONS[(n % 8) as usize], 0],
        Step::Resolve => [FACTORS[(n % 11) as usize], 0],
        Step::Blend => [FACTORS[(n % 11) as usize], FACTORS[(n / 11 % 11) as usize]],
        Step::TexEnv => [(n % 5) as u32, 0],
        Step::Masked => [(n % 2) as u32, 0],
        _ => [0, 0],
    };
    match step {
        Step::Test => {
            colors[0][0] = mixed(rng, list);
            colors[0][1] = if rng.chance(1, 4) { colors[0][0] } else { mixed(rng, list) };
        }
        Step::FogFactor | Step::Fogged => {
            let [start, end, depth] = fog_numbers(rng, list);
            colors[0] = [start, end, depth, 0.0];
        }
        _ => {}
    }
    Asked { step, codes, colors }
}

fn reached(tally: &mut Tally, asked: &Asked, answer: Color) {
    let [a, b, c] = asked.colors;
    tally.count(STEPS.iter().find(|(step, _)| *step == asked.step).unwrap().1);
    match asked.step {
        Step::Test => tally.count(if answer[0] == 1.0 { "comparisons that pass" } else { "comparisons that do not" }),
        Step::TexEnv => tally.count(ENVIRONMENTS[asked.codes[0] as usize].1),
        Step::FogFactor => tally.count(match answer[0] {
            f if f == 0.0 => "fog factors 0",
            f if f == 1.0 => "fog factors 1",
            _ => "fog factors between",
        }),
        _ => {}
    }
    if [a, b, c].iter().flatten().any(|x| x.is_nan()) {
        tally.count("questions with a NaN");
    }
    if [a, b, c].iter().flatten().any(|&x| x < 0.0 || x > 1.0) {
        tally.count("questions with a float outside 0 to 1");
    }
}

fn run(ctx: &mut Ctx) {
    codes(ctx);
    special_comparisons(ctx);
    let list = specials();
    ctx.spread("steps", ctx.cases, 1 << 14, |tally, rng, range| {
        for k in range {
            let asked = ask(k, rng, &list);
            let answer = tally.case(&asked, |a| (ported(a), difference(a)), smaller);
            reached(tally, &asked, answer);
        }
    });
    for (_, name) in STEPS {
        ctx.floor(name, 200_000);
    }
    for (_, name) in ENVIRONMENTS {
        ctx.floor(name, 50_000);
    }
    for name in ["fog factors 0", "fog factors 1", "fog factors between", "comparisons that pass", "comparisons that do not"] {
        ctx.floor(name, 10_000);
    }
    ctx.floor("questions with a NaN", 10_000);
    ctx.floor("questions with a float outside 0 to 1", 100_000);
}

/// Which codes are known: all below 65,536 and around every power of two.
fn codes(ctx: &mut Ctx) {
    let tops = (16..32).flat_map(|n| [(1u32 << n) - 1, 1 << n, (1 << n) + 0x201, (1 << n) + 0x302]);
    for code in (0..65_536).chain(tops).chain([u32::MAX]) {
        ctx.tally.cases += 2;
        let wanted = if CompareFunc::from_enum(code).is_some() { 0 } else { 16 };
        if target::tf_compare_func(code) != wanted {
            ctx.tally.difference(format!("comparison code {code:x}: {wanted} from the Rust, {} from the port", target::tf_compare_func(code)));
        }
        ctx.tally.count(if wanted == 0 { "comparison codes known" } else { "comparison codes refused" });
        let wanted = if BlendFactor::from_enum(code).is_some() { 0 } else { 16 };
        if target::tf_blend_factor(code) != wanted {
            ctx.tally.difference(format!("factor code {code:x}: {wanted} from the Rust, {} from the port", target::tf_blend_factor(code)));
        }
        ctx.tally.count(if wanted == 0 { "factor codes known" } else { "factor codes refused" });
    }
    ctx.floor("comparison codes known", 8);
    ctx.floor("factor codes known", 11);
}

/// Every comparison of every pair of special floats.
fn special_comparisons(ctx: &mut Ctx) {
    let list = specials();
    let n = list.len() as u64;
    ctx.spread("special comparisons", n * n, 1 << 12, |tally, _, range| {
        for k in range {
            let (a, b) = (list[(k / n) as usize], list[(k % n) as usize]);
            for code in COMPARISONS {
                let asked = Asked { step: Step::Test, codes: [code, 0], colors: [[a, b, 0.0, 0.0], [0.0; 4], [0.0; 4]] };
                tally.case(&asked, |a| ((), difference(a)), smaller);
                tally.count("comparisons of special floats");
            }
        }
    });
}

/// An entry: the step's number, two codes (4 bytes each), twelve floats and the four of the answer by their bits.
fn entry(record: &mut Record, asked: &Asked) {
    let mut bytes = vec![asked.step as u8];
    for code in asked.codes {
        bytes.extend(code.to_le_bytes());
    }
    for x in asked.colors.iter().flatten().chain(&rust(asked)) {
        bytes.extend(x.to_bits().to_le_bytes());
    }
    record.entry(&bytes);
}

fn record(record: &mut Record) {
    let mut rng = Rng::named(1, "settings/record", 0);
    let list = specials();
    let mut k = 0;
    while record.answers() < 3_500 {
        let asked = ask(k, &mut rng, &list);
        k += 1;
        // Where a zero's sign is free the replay could not compare bits.
        if !zeros_free(&asked) {
            entry(record, &asked);
        }
    }
    for code in (0x1fe..0x20a).chain(0x2fe..0x30b).chain([0, 1, 2, 0xffff_ffff]) {
        for (step, known) in [(7, CompareFunc::from_enum(code).is_some()), (8, BlendFactor::from_enum(code).is_some())] {
            let mut bytes = vec![step];
            bytes.extend(code.to_le_bytes());
            bytes.extend(if known { 0u32 } else { 16 }.to_le_bytes());
            record.entry(&bytes);
        }
    }
}
