//! The draw: every colour byte, depth and count against raster.rs, with the port's own samples behind its callback and with the Rust's;
//! and what it answers to calls that document 01 refuses.
pub(super) mod inputs;
mod reached;
pub(super) mod reading;
mod recorded;

use self::inputs::*;
use self::reached::*;
use self::reading::{is_call, refusal, ORDER, RECORD_CODES, SETTINGS_CODES};
use crate::judge::Verdict;
use crate::{judged, same, Ctx, Part, Rng};
use ::port::clip::Corner;
use ::port::draw::{draw_triangle, Layouts, Record, Target};
use ::port::sampler::{samples, Coordinates, Numbers};
use std::cell::{Cell, RefCell};
use std::collections::BTreeSet;
use std::sync::Mutex;

pub const PART: Part = Part {
    name: "draw",
    cases: 200_000,
    run,
    record: Some(recorded::record),
};

/// What is lent to be written.
#[derive(Clone, PartialEq)]
struct Lent {
    colors: Vec<u8>,
    depths: Vec<f32>,
}

fn lent(input: &Input) -> (Lent, Vec<u8>) {
    let mut rng = Rng::new(input.seed);
    let mut words = |n: usize| -> Vec<u8> { (0..n.div_ceil(8)).flat_map(|_| rng.u64().to_le_bytes()).take(n).collect() };
    let (colors, store) = (words(input.colors), words(input.store));
    let depths = match input.start {
        Depths::All(z) => vec![z; input.depths],
        Depths::Spread => (0..input.depths).map(|_| rng.unit()).collect(),
        Depths::Any => (0..input.depths).map(|_| f32::from_bits(rng.u32())).collect(),
    };
    (Lent { colors, depths }, store)
}

// ---- the Rust

/// The Rust's settings, for one of its builds.
macro_rules! rust_state {
    ($o:ident, $settings:expr) => {{
        use $o::raster::{BlendFactor, CompareFunc, CullMode, FogMode, FrontFace, PipelineState};
        let s = $settings;
        PipelineState {
            viewport: s.viewport,
            depth_range: s.depth_range,
            scissor: s.scissor(),
            depth_test: s.depth_test,
            depth_func: CompareFunc::from_enum(s.depth_func).unwrap(),
            depth_write: s.depth_write,
            alpha_test: s.alpha_test,
            alpha_func: CompareFunc::from_enum(s.alpha_func).unwrap(),
            alpha_ref: s.alpha_ref,
            blend: s.blend,
            blend_src: BlendFactor::from_enum(s.blend_src).unwrap(),
            blend_dst: BlendFactor::from_enum(s.blend_dst).unwrap(),
            cull: match s.cull {
                0x404 => Some(CullMode::Front),
                0x405 => Some(CullMode::Back),
                0x408 => Some(CullMode::FrontAndBack),
                _ => None,
            },
            front_face: if s.front_face == 0x900 { FrontFace::Cw } else { FrontFace::Ccw },
            color_mask: s.color_mask,
            fog: s.fog,
            fog_mode: match s.fog_mode {
                0x800 => FogMode::Exp,
                0x801 => FogMode::Exp2,
                _ => FogMode::Linear,
            },
            fog_color: s.fog_color,
            fog_start: s.fog_start,
            fog_end: s.fog_end,
            fog_density: s.fog_density,
            smooth_shading: s.smooth_shading,
        }
    }};
}

/// The counts of the triangles that are drawn, and what they leave.
macro_rules! rust_drawn {
    ($o:ident, $input:expr, $before:expr, $drawn:expr, $sample:expr) => {{
        use $o::raster::{draw_triangle, RenderTarget, TexEnvMode, TextureStage, Vertex};
        let (input, before, drawn): (&Input, &Lent, &[[Corner; 3]]) = ($input, $before, $drawn);
        let state = rust_state!($o, &input.settings);
        let stages: Vec<TextureStage> = input
            .stages
            .iter()
            .map(|s| TextureStage {
                unit: s.unit as usize,
                env: match s.env {
                    0x2100 => TexEnvMode::Modulate,
                    0x1e01 => TexEnvMode::Replace,
                    0x2101 => TexEnvMode::Decal,
                    0x0be2 => TexEnvMode::Blend,
                    _ => TexEnvMode::Add,
                },
                env_color: s.env_color,
            })
            .collect();
        let mut target =
            RenderTarget { width: input.width, height: input.height, color: before.colors.clone(), depth: before.depths.clone() };
        let vertex = |c: &Corner| Vertex {
            pos: [c[0], c[1], c[2], c[3]],
            color: [c[4], c[5], c[6], c[7]],
            texcoord: [[c[8], c[9]], [c[10], c[11]], [c[12], c[13]], [c[14], c[15]]],
            fog_depth: c[16],
        };
        let counts: Vec<u64> = drawn
            .iter()
            .map(|corners| draw_triangle(&mut target, &state, $sample, &stages, corners.each_ref().map(vertex)) as u64)
            .collect();
        (counts, Lent { colors: target.color, depths: target.depth })
    }};
}

/// The Rust's texture of a record.
macro_rules! rust_texture {
    ($o:ident, $record:expr, $store:expr) => {{
        use $o::texture::{Filter, MinFilter, Texture, Wrap};
        let (record, store): (&Record, &[u8]) = ($record, $store);
        let mut texture = Texture::default();
        for k in (0..11).filter(|&k| record.is_kept(k)) {
            let level = record.levels[k];
            let (place, size) = (level.place as usize, 4 * level.width as usize * level.height as usize);
            texture.define_level(k as u32, level.width, level.height, store[place..place + size].to_vec());
        }
        texture.min_filter = match record.min {
            0x2600 => MinFilter::Nearest,
            0x2601 => MinFilter::Linear,
            0x2700 => MinFilter::NearestMipmapNearest,
            0x2701 => MinFilter::LinearMipmapNearest,
            0x2702 => MinFilter::NearestMipmapLinear,
            _ => MinFilter::LinearMipmapLinear,
        };
        let wrap = |code| if code == 0x2901 { Wrap::Repeat } else { Wrap::ClampToEdge };
        texture.mag_filter = if record.mag == 0x2600 { Filter::Nearest } else { Filter::Linear };
        (texture.wrap_s, texture.wrap_t) = (wrap(record.wrap_s), wrap(record.wrap_t));
        texture
    }};
}

// ---- the port's samples

/// The record as the probe of the sampler takes it.
fn numbers(record: &Record) -> Numbers {
    let mut numbers = [0; 49];
    for k in (0..11).filter(|&k| record.is_kept(k)) {
        let level = record.levels[k];
        numbers[4 * k..4 * k + 4].copy_from_slice(&[1, level.place as u32, level.width, level.height]);
    }
    let place = |list: &[(u32, &str)], code| list.iter().position(|(c, _)| *c == code).unwrap() as u32;
    let wraps = (place(&WRAPS, record.wrap_s), place(&WRAPS, record.wrap_t));
    numbers[44..].copy_from_slice(&[record.top as u32, place(&FILTERS, record.min), place(&FILTERS, record.mag), wraps.0, wraps.1]);
    numbers
}

/// The port's samples behind the Rust's callback. They are kept, since the judge draws twice.
struct Sampler<'a> {
    store: &'a [u8],
    units: [Option<Numbers>; 4],
    kept: RefCell<Vec<(usize, Coordinates, [u8; 4])>>,
    at: Cell<usize>,
}

impl<'a> Sampler<'a> {
    fn new(input: &Input, store: &'a [u8]) -> Self {
        let named = |u: usize| input.stages.iter().any(|s| s.unit as usize == u) && is_complete(&input.units[u]);
        let units = std::array::from_fn(|u| named(u).then(|| numbers(&input.units[u])));
        Self { store, units, kept: RefCell::default(), at: Cell::new(0) }
    }

    fn sample(&self, unit: usize, p: Coordinates) -> Option<[u8; 4]> {
        let numbers = self.units[unit].as_ref()?;
        let at = self.at.replace(self.at.get() + 1);
        let mut kept = self.kept.borrow_mut();
        if let Some((u, q, texel)) = kept.get(at) {
            if *u == unit && q.map(f32::to_bits) == p.map(f32::to_bits) {
                return Some(*texel);
            }
        }
        let mut out = [0];
        assert_eq!(samples(self.store, numbers, &[p], &mut out), 0, "the record is valid");
        let texel = out[0].to_le_bytes();
        if at == kept.len() {
            kept.push((unit, p, texel));
        }
        Some(texel)
    }
}

/// The counts of the triangles that are drawn, and what they leave, from the Rust with the port's samples.
fn rust_with_samples(input: &Input, before: &Lent, drawn: &[[Corner; 3]], sampler: &Sampler) -> Verdict<(Vec<u64>, Lent)> {
    judged!(o => {
        sampler.at.set(0);
        rust_drawn!(o, input, before, drawn, &|unit, s, t, dsdx, dtdx, dsdy, dtdy| sampler.sample(unit, [s, t, dsdx, dtdx, dsdy, dtdy]))
    })
}

// ---- the comparison

/// What differs between what the Rust and the port leave.
fn apart(what: &str, rust: &Lent, port: &Lent) -> Option<String> {
    same::bytes(&format!("colours{what}"), &rust.colors, &port.colors)
        .or_else(|| same::floats(&format!("depths{what}"), &rust.depths, &port.depths))
}

fn check(input: &Input) -> (Reached, Option<String>) {
    let mut reached = Reached::default();
    let (before, store) = lent(input);
    let refusals: Vec<u32> = input.triangles.iter().map(|t| refusal(input, t)).collect();
    let drawn: Vec<[Corner; 3]> = input.triangles.iter().zip(&refusals).filter(|(_, &n)| n == 0).map(|(t, _)| *t).collect();

    let mut port = before.clone();
    let answers: Vec<(u32, u32)> = input
        .triangles
        .iter()
        .map(|corners| {
            let layouts = Layouts::of(&input.units, &input.settings, &input.stages, corners);
            let mut target = Target { colors: &mut port.colors, depths: &mut port.depths, width: input.width, height: input.height };
            draw_triangle(&mut target, &store, &layouts)
        })
        .collect();
    for (corners, &number) in input.triangles.iter().zip(&refusals) {
        refused(&mut reached, input, corners, number);
    }
    if drawn.is_empty() {
        let wanted: Vec<(u32, u32)> = refusals.iter().map(|&n| (n, 0)).collect();
        let difference = (wanted != answers).then(|| format!("answers {wanted:?} from document 01, {answers:?} from the port"));
        return (reached, difference.or_else(|| apart(" after a refused call", &before, &port)));
    }

    let sampler = Sampler::new(input, &store);
    let verdict = rust_with_samples(input, &before, &drawn, &sampler);
    let (counts, rust) = verdict.answer;
    let mut next = counts.iter();
    let wanted: Vec<(u32, u32)> = refusals.iter().map(|&n| (n, if n == 0 { *next.next().unwrap() as u32 } else { 0 })).collect();
    let difference = (wanted != answers)
        .then(|| format!("answers {wanted:?} from the Rust with the port's samples, {answers:?} from the port"))
        .or_else(|| apart(" with the port's samples", &rust, &port));
    if verdict.overflowed {
        reached.add("draws with a box end past the largest i32", "", 1);
    }
    for (corners, &count) in drawn.iter().zip(&counts) {
        shapes(&mut reached, input, corners, count);
    }
    if drawn.len() == 2 && counts.iter().all(|&n| n > 0) {
        reached.add("pairs with a shared edge that both write", "", 1);
    }
    let written: u64 = counts.iter().sum();
    settled(&mut reached, input, written);
    if written > 0 {
        reached.settings = chosen(input);
    }
    kept_back(&mut reached, input, &before, &drawn);
    if !verdict.overflowed {
        sampled(&mut reached, input, &sampler, written);
    }
    if difference.is_some() || sampler.units.iter().all(Option::is_none) {
        return (reached, difference);
    }
    let difference = own_samples(&mut reached, input, &before, &store, &drawn, (&counts, &port));
    (reached, difference)
}

/// The same with the Rust's own samples behind the callback: equal where both filters are the same and use no mipmaps.
fn own_samples(
    reached: &mut Reached,
    input: &Input,
    before: &Lent,
    store: &[u8],
    drawn: &[[Corner; 3]],
    (counts, port): (&[u64], &Lent),
) -> Option<String> {
    let named = |u: usize| input.stages.iter().any(|s| s.unit as usize == u) && is_complete(&input.units[u]);
    let verdict = judged!(o => {
        let textures: [Option<o::texture::Texture>; 4] =
            std::array::from_fn(|u| named(u).then(|| rust_texture!(o, &input.units[u], store)));
        rust_drawn!(o, input, before, drawn, &|unit: usize, s, t, dsdx, dtdx, dsdy, dtdy| {
            Some(textures[unit].as_ref()?.sample_with_gradients(s, t, dsdx, dtdx, dsdy, dtdy))
        })
    });
    if verdict.overflowed {
        reached.add("draws with the Rust's samples that overflow", "", 1);
    }
    let (own, rust) = verdict.answer;
    let read: Vec<&Record> = (0..4).filter(|&u| named(u)).map(|u| &input.units[u]).collect();
    if read.iter().all(|r| r.min == r.mag) {
        reached.add("calls with the Rust's samples that must be equal", "", 1);
        return (own != counts)
            .then(|| format!("counts {own:?} from the Rust with its own samples, {counts:?} from the port"))
            .or_else(|| apart(" with the Rust's samples", &rust, port));
    }
    reached.add("calls with the Rust's samples of another level of detail", "", 1);
    let levels = if read.iter().any(|r| r.min > 0x2701) {
        "two levels mixed"
    } else if read.iter().any(|r| r.min > 0x2601) {
        "the nearest level"
    } else {
        "Nearest and Linear in turn"
    };
    // What enlarges a difference.
    let outside = |c: &[f32]| !c.iter().all(|x| (0.0..=1.0).contains(x));
    let under = if input.stages.iter().any(|s| outside(&s.env_color)) || drawn.iter().flatten().any(|c| outside(&c[4..8])) {
        ", colours outside 0 to 1"
    } else if input.settings.alpha_test {
        ", an alpha test"
    } else if input.settings.blend {
        ", a blend"
    } else {
        ""
    };
    let differ = rust.colors.iter().zip(&port.colors).map(|(a, b)| a.abs_diff(*b));
    let differing = rust.colors.chunks(4).zip(port.colors.chunks(4)).filter(|(a, b)| a != b).count();
    reached.add("pixels that differ from the Rust's samples,", levels, differing as u64);
    reached.greatest.insert((levels, under), differ.max().unwrap_or(0));
    if own != counts {
        reached.add("calls whose count is not that of the Rust's samples", "", 1);
    }
    None
}

/// Never, and culling of both faces, write nothing: the pixels that they keep back.
fn kept_back(reached: &mut Reached, input: &Input, before: &Lent, drawn: &[[Corner; 3]]) {
    let s = &input.settings;
    let never = (s.depth_test && s.depth_func == 0x200, s.alpha_test && s.alpha_func == 0x200, s.cull == 0x408);
    let (group, settings) = match never {
        (true, false, false) => ("pixels kept back by depth comparison Never", ::port::draw::Settings { depth_test: false, ..s.clone() }),
        (false, true, false) => ("pixels kept back by alpha comparison Never", ::port::draw::Settings { alpha_test: false, ..s.clone() }),
        (false, false, true) => ("pixels kept back by culling FrontAndBack", ::port::draw::Settings { cull: 0, ..s.clone() }),
        _ => return,
    };
    let freed = Input { settings, ..input.clone() };
    let (counts, _) = rust_drawn!(oracle_saturating, &freed, before, drawn, &|_, _, _, _, _, _, _| None);
    reached.add(group, "", counts.iter().sum());
}

/// Samples by filter and wrap, where every pixel that was sampled was written.
fn sampled(reached: &mut Reached, input: &Input, sampler: &Sampler, written: u64) {
    let kept = sampler.kept.borrow();
    let stages = input.stages.iter().filter(|s| is_complete(&input.units[s.unit as usize])).count() as u64;
    if stages == 0 || kept.len() as u64 != written * stages {
        return;
    }
    for (unit, [s, t, dsdx, dtdx, dsdy, dtdy], _) in kept.iter() {
        let record = &input.units[*unit];
        let (w, h) = (f64::from(record.levels[0].width), f64::from(record.levels[0].height));
        let along = |ds: &f32, dt: &f32| (f64::from(*ds) * w).powi(2) + (f64::from(*dt) * h).powi(2);
        if along(dsdx, dtdx).max(along(dsdy, dtdy)) > 1.0 {
            reached.add("pixels minified by", name(&FILTERS, record.min), 1);
        } else {
            reached.add("pixels magnified by", name(&FILTERS, record.mag), 1);
        }
        if !(0.0..1.0).contains(s) {
            reached.add("pixels past the texture in s under", name(&WRAPS, record.wrap_s), 1);
        }
        if !(0.0..1.0).contains(t) {
            reached.add("pixels past the texture in t under", name(&WRAPS, record.wrap_t), 1);
        }
    }
}

// ---- calls that are none of document 01

/// A call whose layouts are bent: a length changed, or a code that has no value.
#[derive(Clone, Debug)]
struct Bent {
    input: Input,
    bend: Bend,
}

#[derive(Clone, Copy, Debug)]
enum Bend {
    /// Units, settings, stages or vertices: so many bytes more or fewer.
    Length(usize, i64),
    /// Units, settings or stages: the code at this place.
    Code(usize, usize, u32),
}

fn bend(rng: &mut Rng, input: &Input) -> Bend {
    let unknown = |rng: &mut Rng, codes: &[u32]| loop {
        let code = match rng.below(3) {
            0 => rng.pick(codes).wrapping_add(rng.pick(&[1, u32::MAX, 0x1_0000, 0x8000_0000])),
            1 => rng.below(0x10000) as u32,
            _ => rng.u32(),
        };
        if !codes.contains(&code) {
            return code;
        }
    };
    let stages = input.stages.len().min(4);
    match rng.below(4) {
        0 => Bend::Length(rng.below(4) as usize, rng.pick(&[-23, -4, -1, 1, 4, 23])),
        1 => {
            let (at, codes) = rng.pick(&RECORD_CODES);
            let unit = rng.below(4) as usize;
            Bend::Code(0, 244 * unit + at, unknown(rng, codes))
        }
        2 if stages > 0 => {
            let codes: Vec<u32> = ENVIRONMENTS.iter().map(|(code, _)| *code).collect();
            Bend::Code(2, 24 * rng.below(stages as u64) as usize + 4, unknown(rng, &codes))
        }
        _ => {
            let (at, codes) = rng.pick(&SETTINGS_CODES);
            Bend::Code(1, at, unknown(rng, codes))
        }
    }
}

/// Whether the layouts are none of document 01's, and what differs; those of a call of document 01 are held to it as it was before the bend.
fn check_bent(bent: &Bent) -> (bool, Option<String>) {
    let (input, corners) = (&bent.input, &bent.input.triangles[0]);
    let (before, store) = lent(input);
    let whole = Layouts::of(&input.units, &input.settings, &input.stages, corners);
    let mut layouts = whole.clone();
    {
        let parts = [&mut layouts.units, &mut layouts.settings, &mut layouts.stages, &mut layouts.vertices];
        match bent.bend {
            Bend::Length(which, by) => {
                let len = (parts[which].len() as i64 + by).max(1) as usize;
                parts[which].resize(len, 0);
            }
            Bend::Code(which, at, code) => parts[which][at..at + 4].copy_from_slice(&code.to_le_bytes()),
        }
    }
    let call = |layouts: &Layouts| {
        let mut port = before.clone();
        let mut target = Target { colors: &mut port.colors, depths: &mut port.depths, width: input.width, height: input.height };
        (draw_triangle(&mut target, &store, layouts), port)
    };
    let (answer, port) = call(&layouts);
    if is_call(&layouts) {
        let (wanted, unbent) = call(&whole);
        let difference = (answer != wanted).then(|| format!("answer {answer:?} with a record that no stage names bent, and {wanted:?} before"));
        return (false, difference.or_else(|| apart(" with a record that no stage names bent", &unbent, &port)));
    }
    let difference = (answer != (255, 0)).then(|| format!("answer {answer:?} from the port, and not 255"));
    (true, difference.or_else(|| apart(" after a call that is none", &before, &port)))
}

// ---- the run

/// A call of this number; one in eight is spoilt, half of those by a later fault too.
fn input(rng: &mut Rng, k: u64) -> Input {
    let mut input = drawn(rng, k);
    if k % 8 == 5 {
        let first = (k / 8 % 8) as usize;
        spoil(rng, &mut input, ORDER[first]);
        if rng.chance(5, 8) && first < 7 {
            let later = rng.between(first as i64 + 1, 7) as usize;
            spoil(rng, &mut input, ORDER[later]);
        }
    }
    input
}

fn run(ctx: &mut Ctx) {
    let pairs: Mutex<BTreeSet<(usize, usize)>> = Mutex::default();
    ctx.spread("calls", ctx.cases, 500, |tally, rng, range| {
        let mut reached = Reached::default();
        let mut met = BTreeSet::new();
        for k in range {
            let one = tally.case(&input(rng, k), check, smaller);
            for (i, &a) in one.settings.iter().enumerate() {
                met.extend(one.settings[..i].iter().map(|&b| (b, a)));
            }
            reached.merge(one);
        }
        pairs.lock().unwrap().extend(met);
        reached.tell(tally);
    });
    ctx.tally.add("pairs of settings that a pixel was written under", pairs.into_inner().unwrap().len() as u64);
    ctx.spread("layouts", ctx.cases / 10, 500, |tally, rng, range| {
        for k in range {
            let mut input = drawn(rng, 8 * k + 1);
            if rng.chance(1, 3) {
                let number = rng.pick(&ORDER);
                spoil(rng, &mut input, number);
            }
            let bend = bend(rng, &input);
            let wrong = tally.case(&Bent { input, bend }, check_bent, |b| {
                smaller(&b.input).into_iter().map(|input| Bent { input, ..*b }).collect()
            });
            tally.count(if wrong { "calls with a wrong layout" } else { "calls with an unknown code in a record that no stage names" });
        }
    });
    worked(ctx);
    floors(ctx);
}

/// Document 01's worked run: two triangles over a target of 2 by 2.
fn worked(ctx: &mut Ctx) {
    let corner = |x: f32, y: f32| {
        let mut c: Corner = [0.0; 17];
        (c[0], c[1], c[3]) = (x, y, 1.0);
        c
    };
    let first = [corner(-1.0, -1.0), corner(1.0, -1.0), corner(-1.0, 1.0)];
    let second = [corner(1.0, -1.0), corner(1.0, 1.0), corner(-1.0, 1.0)];
    let record = Record { levels: Default::default(), top: 0, min: 0x2600, mag: 0x2600, wrap_s: 0x2901, wrap_t: 0x2901 };
    let units: [Record; 4] = std::array::from_fn(|_| record.clone());
    for (depth_test, counts) in [(false, [3, 3]), (true, [3, 1])] {
        let settings = ::port::draw::Settings { viewport: (0, 0, 2, 2), depth_test, ..Default::default() };
        let (mut colors, mut depths) = ([0; 16], [1.0; 4]);
        let answers = [first, second].map(|corners| {
            let mut target = Target { colors: &mut colors, depths: &mut depths, width: 2, height: 2 };
            draw_triangle(&mut target, &[], &Layouts::of(&units, &settings, &[], &corners))
        });
        ctx.tally.cases += 1;
        if answers != counts.map(|n| (0, n)) || depths != [0.5; 4] {
            ctx.tally.difference(format!("worked run: answers {answers:?}, depths {depths:?}, and not {counts:?} and 0.5"));
        }
    }
}
