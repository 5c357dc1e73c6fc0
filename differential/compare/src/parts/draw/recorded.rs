//! The record: draws of every kind on small targets, refused calls, and calls at the ends of what each check lets pass.
use super::inputs::{Depths, Input, LIMIT};
use super::reached::names;
use super::reading::refusal;
use super::{check, input, lent, rust_with_samples, Lent, Sampler};
use crate::{Record, Rng};
use ::port::clip::Corner;
use ::port::draw::{Layouts, Level, Record as Texture, Settings, Stage};
use std::collections::BTreeMap;

/// An entry: width and height, the number answered and the count; the lengths of the stages, the store, the colours and the depths (4
/// bytes each); settings, vertices and units as docs/INTERFACE.md has them; the stages; the store; colours and depths before the call;
/// and after it.
fn entry(record: &mut Record, input: &Input) {
    let corners = &input.triangles[0];
    let (before, store) = lent(input);
    let number = refusal(input, corners);
    let (count, after) = if number == 0 {
        let (counts, after) = rust_with_samples(input, &before, &[*corners], &Sampler::new(input, &store)).answer;
        (counts[0] as u32, after)
    } else {
        (0, before.clone())
    };
    let layouts = Layouts::of(&input.units, &input.settings, &input.stages, corners);
    let lengths = [layouts.stages.len(), store.len(), before.colors.len(), before.depths.len()].map(|n| n as u32);
    let mut bytes = Vec::new();
    for n in [input.width, input.height, number, count].into_iter().chain(lengths) {
        bytes.extend(n.to_le_bytes());
    }
    bytes.extend([layouts.settings, layouts.vertices, layouts.units, layouts.stages, store].concat());
    for Lent { colors, depths } in [before, after] {
        bytes.extend(colors);
        bytes.extend(depths.iter().flat_map(|d| d.to_bits().to_le_bytes()));
    }
    record.entry(&bytes);
}

// ---- calls at the limits

/// The float after the limit.
const PAST: f32 = 1048576.125;

/// A triangle over all of a target of 2 by 2, through one stage with a texture of one texel.
fn plain() -> Input {
    let corner = |x: f32, y: f32| -> Corner { std::array::from_fn(|i| if i < 4 { [x, y, 0.0, 1.0][i] } else { 0.5 }) };
    let mut levels = [Level::default(); 11];
    levels[0] = Level { kept: 1, width: 1, height: 1, place: 0 };
    let texture = Texture { levels, top: 0, min: 0x2600, mag: 0x2600, wrap_s: 0x2901, wrap_t: 0x2901 };
    Input {
        width: 2,
        height: 2,
        colors: 16,
        depths: 4,
        start: Depths::All(1.0),
        store: 4,
        units: std::array::from_fn(|_| texture.clone()),
        settings: Settings { viewport: (0, 0, 2, 2), scissor: (0, 0, 2, 2), ..Settings::default() },
        stages: vec![Stage { unit: 0, env: 0x2100, env_color: [0.5; 4] }],
        triangles: vec![[corner(-1.0, -1.0), corner(3.0, -1.0), corner(-1.0, 3.0)]],
        seed: 1,
    }
}

fn floats(s: &mut Settings) -> [&mut f32; 10] {
    let [r, g, b, a] = &mut s.fog_color;
    let (near, far) = (&mut s.depth_range.0, &mut s.depth_range.1);
    [near, far, &mut s.alpha_ref, r, g, b, a, &mut s.fog_start, &mut s.fog_end, &mut s.fog_density]
}

/// For each check a call at its limit, which passes, and one past it.
fn limits() -> Vec<Input> {
    let mut list = Vec::new();
    let mut add = |change: &dyn Fn(&mut Input)| {
        let mut input = plain();
        change(&mut input);
        list.push(input);
    };
    for (width, height, colors, depths) in
        [(2, 2, 15, 4), (2, 2, 17, 4), (2, 2, 16, 3), (2, 2, 16, 5), (4096, 0, 0, 0), (4097, 0, 0, 0), (0, 4096, 0, 0), (0, 4097, 0, 0)]
    {
        add(&|input| (input.width, input.height, input.colors, input.depths) = (width, height, colors, depths));
    }
    for n in [8192, -8192, 8193, -8193] {
        for i in 0..4 {
            add(&|input| {
                input.settings.boxed = true;
                let (x, y, w, h) = &mut input.settings.scissor;
                *[x, y, w, h][i] = n;
            });
        }
        add(&|input| input.settings.viewport.0 = n);
        add(&|input| input.settings.viewport.1 = n);
    }
    for n in [4096, 4097] {
        add(&|input| input.settings.viewport.2 = n);
        add(&|input| input.settings.viewport.3 = n);
    }
    for (i, x) in (0..10).flat_map(|i| [(i, LIMIT), (i, if i % 2 == 0 { PAST } else { -PAST })]) {
        add(&|input| *floats(&mut input.settings)[i] = x);
    }
    for fog_mode in [0x2601, 0x800, 0x801] {
        add(&|input| (input.settings.fog, input.settings.fog_mode) = (true, fog_mode));
    }
    for count in [0, 4, 5] {
        add(&|input| input.stages = vec![input.stages[0]; count]);
    }
    for unit in [3, 4] {
        add(&|input| input.stages[0].unit = unit);
    }
    for (i, x) in (0..4).flat_map(|i| [(i, -LIMIT), (i, if i % 2 == 0 { -PAST } else { PAST })]) {
        add(&|input| input.stages[0].env_color[i] = x);
    }
    // Of unit 0: level 0's sides and place, a level past the chain, the top level.
    for (width, height, place, top) in [(1024, 0, 0, 0), (1025, 0, 0, 0), (0, 1025, 0, 0), (1, 1, 4, 0), (1, 1, 5, 0), (1, 1, 0, 1)] {
        add(&|input| {
            input.store = 8;
            input.units[0].levels[0] = Level { kept: 1, width, height, place };
            input.units[0].top = top;
        });
    }
    for place in [3, 4] {
        add(&|input| {
            input.store = 8;
            input.units[0].levels[10] = Level { kept: 1, width: 1, height: 1, place };
        });
    }
    for (i, x) in (0..17).flat_map(|i| [(i, LIMIT), (i, if i % 2 == 0 { PAST } else { -PAST })]) {
        add(&|input| input.triangles[0][i % 3][i] = x);
    }
    list
}

// ---- calls that tell readings apart

/// Each comparison of the depth, and of the alpha, at equality, below it and above it; a triangle about a pixel's centre of a far smaller
/// area than 1e-6, which is drawn; spans of the fog about 1e-9, below which there is no fog.
fn corner_cases() -> Vec<Input> {
    let mut list = Vec::new();
    let mut add = |change: &dyn Fn(&mut Input)| {
        let mut input = plain();
        input.stages.clear();
        input.settings.smooth_shading = false;
        change(&mut input);
        list.push(input);
    };
    for code in 0x200..=0x207 {
        for x in [0.5, 0.25, 0.75] {
            add(&|input| {
                (input.settings.depth_test, input.settings.depth_func, input.start) = (true, code, Depths::All(x));
            });
            add(&|input| {
                (input.settings.alpha_test, input.settings.alpha_func, input.settings.alpha_ref) = (true, code, x);
            });
        }
    }
    for (dx, dy) in [(1e-4, 1e-4), (2e-4, 1e-5), (1e-5, 2e-4)] {
        add(&|input| {
            for (corner, [x, y]) in input.triangles[0].iter_mut().zip([[-dx, -dy], [2.0 * dx, -dy], [-dx, 2.0 * dy]]) {
                (corner[0], corner[1]) = (x - 0.5, y - 0.5);
            }
        });
    }
    for span in [0.0, 1e-10, -1e-10, 9.9e-10, -9.9e-10, 1e-9, -1e-9, 1.1e-9, -1.1e-9] {
        add(&|input| {
            (input.settings.fog, input.settings.fog_mode, input.settings.fog_end) = (true, 0x2601, span);
            input.settings.fog_color = [1.0, 0.0, 1.0, 0.0];
        });
    }
    list
}

/// A triangle in perspective over much of a target of 16 by 16: smooth colours, a texture of three levels, fog and a blend by turns.
fn spread(k: u64) -> Input {
    let mut rng = Rng::named(1, "draw/spread", k);
    let mut input = plain();
    (input.width, input.height, input.colors, input.depths, input.seed) = (16, 16, 1024, 256, k);
    (input.settings.viewport, input.settings.scissor) = ((0, 0, 16, 16), (0, 0, 16, 16));
    let most = rng.pick(&[1.5, 6.0, 24.0]);
    for (corner, [x, y]) in input.triangles[0].iter_mut().zip([[-0.9, -0.9], [0.9, -0.7], [-0.1, 0.9]]) {
        *corner = std::array::from_fn(|i| if i < 8 { rng.unit() } else { rng.float(-0.5, most) });
        let w = rng.float(0.5, 3.0);
        (corner[0], corner[1], corner[2], corner[3]) = ((x + rng.float(-0.1, 0.1)) * w, (y + rng.float(-0.1, 0.1)) * w, rng.float(-0.9, 0.9) * w, w);
    }
    input.store = 84;
    let texture = &mut input.units[0];
    for (k, place) in [(0, 0), (1, 64), (2, 80)] {
        texture.levels[k] = Level { kept: 1, width: 4 >> k, height: 4 >> k, place };
    }
    (texture.top, texture.min) = (2, rng.pick(&[0x2600, 0x2702, 0x2703]));
    texture.wrap_s = rng.pick(&[0x2901, 0x812f]);
    if rng.bool() {
        input.stages.clear();
    } else {
        input.stages[0].env = rng.pick(&[0x2100, 0x1e01]);
    }
    if rng.chance(1, 3) {
        (input.settings.fog, input.settings.fog_mode, input.settings.fog_end) = (true, 0x2601, rng.float(0.5, 2.0));
        input.settings.fog_color = std::array::from_fn(|_| rng.unit());
    }
    if rng.chance(1, 3) {
        (input.settings.blend, input.settings.blend_src, input.settings.blend_dst) = (true, rng.pick(&[1, 0x302, 0x306]), rng.pick(&[1, 0x303, 0x300]));
    }
    input
}

/// Draws of `spread` in which another reading of the Rust's lines gives other bytes; they were searched for with a changed copy of it.
const TOLD_APART: [u64; 18] = [
    517, 1854, // a weight below 0 is outside
    538, 3224, // the interpolated 1/w summed from the right
    1125, 4610, // a corner's share as w0 * (inv_w * rec)
    874, 10497, // an attribute's products as w0 * (inv_w * value)
    2813, 3097, // an attribute over 1/rec, and not times rec
    40379, 56128, // a gradient as two products less each other
    4366, 5348, // a byte times 1/255, and not over 255
    7003, 30123, // fog as c0 + (c - c0) f
    5127, 14559, // a blend whose last product is not rounded
];

// ---- the record

/// Whether one triangle is drawn with small textures on a target of sides up to 16 and so many pixels, or of no length at all.
fn is_small(input: &Input, pixels: usize) -> bool {
    let lengths = input.colors <= 4 * pixels + 4 && input.depths <= pixels + 3;
    let sides = input.colors == 0 || input.width.max(input.height) <= 16;
    input.triangles.len() == 1 && lengths && sides && input.store <= 640
}

/// So many entries reach each counter of `names`.
const EACH: u32 = 3;

/// So many entries there are; past them only what a counter still wants.
const ENTRIES: u64 = 420;

pub fn record(record: &mut Record) {
    for input in limits() {
        entry(record, &input);
    }
    let mut rng = Rng::named(1, "draw/record", 0);
    let mut wanting: BTreeMap<String, u32> = names().into_iter().map(|name| (name, EACH)).collect();
    for k in 0..100_000 {
        let input = input(&mut rng, k);
        // Few on targets of more than 80 pixels, so that the record stays small.
        if !is_small(&input, if rng.chance(1, 16) { 256 } else { 80 }) {
            continue;
        }
        let reached = check(&input).0;
        let met = reached.met();
        // Of the calls that write nothing, one in eight.
        let writes = !reached.settings.is_empty();
        let full = record.answers() >= ENTRIES;
        if met.iter().any(|name| wanting.contains_key(name)) || !full && (writes || rng.chance(1, 8)) {
            entry(record, &input);
            for name in &met {
                if let Some(n) = wanting.get_mut(name) {
                    *n -= 1;
                }
            }
            wanting.retain(|_, n| *n > 0);
        } else if full && wanting.is_empty() {
            break;
        }
    }
    assert!(wanting.is_empty(), "the record does not reach {wanting:?}");
    for input in corner_cases().into_iter().chain(TOLD_APART.map(spread)) {
        entry(record, &input);
    }
}
