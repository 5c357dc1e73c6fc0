//! Clipping and triangle setup: clip_distance, inside_frustum, lerp_vertex, clip_frustum; and raster_clipped's corners, area, culling,
//! box and gradients, which show in the pixels that it visits and in what its sampling callback is handed.
use crate::floats::{bounded, mixed, specials};
use crate::same::{f32s, floats};
use crate::{judged, shrink, Ctx, Part, Rng, Tally};
use port::clip as port;
use std::cell::RefCell;
use std::hint::black_box;

pub const PART: Part = Part {
    name: "clip",
    cases: 200_000,
    run,
    record: None,
};

#[derive(Clone, Debug)]
struct Input {
    corners: [port::Corner; 3],
    t: f32,
    viewport: (i32, i32, i32, i32),
    range: (f32, f32),
    size: (u32, u32),
    scissor: Option<(i32, i32, i32, i32)>,
    ccw: bool,
    cull: u32,
    unit: usize,
}

/// What a case reached.
#[derive(Default)]
struct Reached {
    inside: bool,
    crossed: [bool; 7],
    left: usize,
    undivided: bool,
    culled: bool,
    overflowed: bool,
    triangles: u64,
    pixels: u64,
}

/// A corner as the crate `$o`'s vertex.
macro_rules! vertex {
    ($o:ident, $c:expr) => {{
        let c: &port::Corner = $c;
        $o::raster::Vertex {
            pos: [c[0], c[1], c[2], c[3]],
            color: [c[4], c[5], c[6], c[7]],
            texcoord: [[c[8], c[9]], [c[10], c[11]], [c[12], c[13]], [c[14], c[15]]],
            fog_depth: c[16],
        }
    }};
}

fn corner(v: &oracle::raster::Vertex) -> port::Corner {
    let t = v.texcoord;
    let (p, c) = (v.pos, v.color);
    [
        p[0], p[1], p[2], p[3], c[0], c[1], c[2], c[3], t[0][0], t[0][1], t[1][0], t[1][1], t[2][0], t[2][1], t[3][0], t[3][1],
        v.fog_depth,
    ]
}

fn run(ctx: &mut Ctx) {
    let specials = specials();
    ctx.spread("random", ctx.cases, 1000, |tally, rng, range| {
        for k in range {
            one(tally, &input(rng, &specials, k));
        }
    });
    ctx.tally.add("all", ctx.cases);
    for (name, percent) in [("clipped and visible", 10), ("inside", 3), ("pixels visited by a draw", 20)] {
        ctx.floor_share(name, "all", percent);
    }
    for plane in 0..7 {
        ctx.floor(&format!("crossed plane {plane}"), 1000);
    }
    for name in ["corner that cannot be divided", "culled", "box end past the largest i32"] {
        ctx.floor(name, 20);
    }
}

fn one(tally: &mut Tally, input: &Input) {
    let reached = tally.case(input, check, smaller);
    let named = [
        (reached.inside, "inside"),
        (!reached.inside && reached.left > 0, "clipped and visible"),
        (reached.left == 0, "outside"),
        (reached.undivided, "corner that cannot be divided"),
        (reached.culled, "culled"),
        (reached.overflowed, "box end past the largest i32"),
        (reached.pixels > 0, "pixels visited by a draw"),
    ];
    for (so, name) in named {
        if so {
            tally.count(name);
        }
    }
    for plane in 0..7 {
        if reached.crossed[plane] {
            tally.count(&format!("crossed plane {plane}"));
        }
    }
    tally.add("triangles made ready", reached.triangles);
    tally.add("pixels", reached.pixels);
    tally.greatest("corners left", reached.left as f64);
}

/// Corners that cross planes, lie on them, or are hard to divide.
fn position(rng: &mut Rng, specials: &[f32], kind: u64) -> [f32; 4] {
    let w = match kind {
        0 => 1.0,
        1 => rng.float(0.05, 4.0),
        2 => rng.pick(&[0.0, -0.0, 1e-9, 1e-8, 2e-8, -1e-9, 1e-7, 0.5, 1.0]),
        3 => rng.float(-1.0, 2.0),
        4 => bounded(rng),
        _ => return std::array::from_fn(|_| mixed(rng, specials)),
    };
    let mut pos = [0.0, 0.0, 0.0, w];
    for x in &mut pos[..3] {
        *x = match rng.below(8) {
            0 => rng.pick(&[w, -w, 0.0]),
            1 => w * rng.float(-3.0, 3.0),
            2 if kind == 4 => bounded(rng),
            _ => w * rng.float(-1.3, 1.3),
        };
    }
    pos
}

fn input(rng: &mut Rng, specials: &[f32], k: u64) -> Input {
    let kind = if rng.chance(1, 40) { 5 } else { rng.pick(&[0, 0, 1, 1, 1, 2, 3, 4]) };
    let near = rng.chance(1, 8);
    let corners = std::array::from_fn(|_| {
        let kind = if kind == 2 { rng.pick(&[0, 1, 2]) } else { kind };
        let pos = position(rng, specials, kind);
        std::array::from_fn(|i| match i {
            0..4 => if near && i < 3 { pos[i] * 0.4 } else { pos[i] },
            _ => rng.float(-2.0, 2.0),
        })
    });
    let (width, height) = (rng.between(1, 12) as u32, rng.between(1, 12) as u32);
    let viewport = match rng.below(8) {
        0 => (rng.between(-9, 9) as i32, rng.between(-9, 9) as i32, rng.between(-1, 30) as i32, rng.between(-1, 30) as i32),
        1 => (rng.between(-8192, 8192) as i32, rng.between(-8192, 8192) as i32, rng.between(0, 4096) as i32, rng.between(0, 4096) as i32),
        _ => (0, 0, width as i32, height as i32),
    };
    let scissor = rng.chance(1, 4).then(|| {
        (rng.between(-4, 8) as i32, rng.between(-4, 8) as i32, rng.between(-1, 14) as i32, rng.between(-1, 14) as i32)
    });
    let mut input = Input {
        corners,
        t: mixed(rng, specials),
        viewport,
        range: rng.pick(&[(0.0, 1.0), (0.0, 1.0), (1.0, 0.0), (0.25, 0.75), (-3.0, 2.5)]),
        size: (width, height),
        scissor,
        ccw: rng.bool(),
        cull: rng.pick(&[0, 0, 0, 1, 2, 3]),
        unit: rng.below(4) as usize,
    };
    // The input of docs/DIFFERENCES.md, and its neighbours.
    if k % 1000 == 0 {
        let positions =
            [[-0.58440924, 1048576.0, -7.913417e-9, 1048576.0], [-1048576.0, 916127.4, -1098.8129, 27232.875], [3.587898e-9, -0.09214437, 0.0, 0.0]];
        for (corner, pos) in input.corners.iter_mut().zip(positions) {
            corner[..4].copy_from_slice(&pos);
        }
        input.viewport = (-1024, -1024, 4096, 4096);
        (input.size, input.scissor, input.cull) = ((8, 8), None, 0);
    }
    input
}

fn check(input: &Input) -> (Reached, Option<String>) {
    let mut reached = Reached::default();
    let difference = clipping(input, &mut reached).or_else(|| {
        let polygon = port::clip_triangle(&input.corners);
        let fan: Vec<[port::Corner; 3]> = if reached.inside {
            vec![input.corners]
        } else {
            (1..polygon.len().max(2) - 1).map(|i| [polygon[0], polygon[i], polygon[i + 1]]).collect()
        };
        fan.iter().find_map(|triangle| setup(input, triangle, &mut reached))
    });
    (reached, difference)
}

fn clipping(input: &Input, reached: &mut Reached) -> Option<String> {
    let corners = black_box(input.corners);
    let rust = corners.each_ref().map(|c| vertex!(oracle, c));
    for plane in 0..8 {
        let mut sides = [false; 3];
        for i in 0..3 {
            let (r, p) = (oracle::raster::probe::clip_distance(&rust[i], plane), port::clip_distance(&corners[i], plane));
            sides[i] = r >= 0.0;
            if !f32s(r, p) {
                return Some(format!("distance of corner {i} to plane {plane}: {r:e} from the Rust, {p:e} from the port"));
            }
        }
        if plane < 7 && sides != [sides[0]; 3] {
            reached.crossed[plane] = true;
        }
    }
    for i in 0..3 {
        let (r, p) = (oracle::raster::probe::inside_frustum(&rust[i]), port::inside_frustum(&corners[i]));
        if r != p {
            return Some(format!("corner {i} inside the frustum: {r} from the Rust, {p} from the port"));
        }
    }
    reached.inside = rust.iter().all(oracle::raster::probe::inside_frustum);
    let between = oracle::raster::probe::lerp_vertex(&rust[0], &rust[1], black_box(input.t));
    let difference = floats("interpolated vertex", &corner(&between), &port::lerp_vertex(&corners[0], &corners[1], input.t));
    if difference.is_some() {
        return difference;
    }
    let left = oracle::raster::probe::clip_frustum(&rust).unwrap_or_default();
    let polygon = port::clip_triangle(&corners);
    reached.left = polygon.len();
    if left.len() != polygon.len() {
        return Some(format!("{} corners left from the Rust, {} from the port", left.len(), polygon.len()));
    }
    left.iter().zip(&polygon).enumerate().find_map(|(i, (r, p))| floats(&format!("corner {i} left"), &corner(r), p))
}

/// Depth of a pixel that was not written.
const UNWRITTEN: f32 = -1000.0;

/// How many pixels the crate `$o` writes, the depths it leaves, and what its callback was handed at each.
macro_rules! rastered {
    ($o:ident, $input:expr, $triangle:expr) => {{
        let (input, triangle): (&Input, &[port::Corner; 3]) = ($input, $triangle);
        use $o::raster::{CullMode, FrontFace, PipelineState, RenderTarget, TexEnvMode, TextureStage};
        let mut target = RenderTarget::new(input.size.0, input.size.1);
        target.depth.fill(UNWRITTEN);
        let state = PipelineState {
            viewport: input.viewport,
            depth_range: input.range,
            scissor: input.scissor,
            cull: [None, Some(CullMode::Front), Some(CullMode::Back), Some(CullMode::FrontAndBack)][input.cull as usize],
            front_face: if input.ccw { FrontFace::Ccw } else { FrontFace::Cw },
            ..Default::default()
        };
        let seen: RefCell<Vec<[f32; 6]>> = RefCell::new(Vec::new());
        let sample = |_: usize, s: f32, t: f32, dsdx: f32, dtdx: f32, dsdy: f32, dtdy: f32| {
            seen.borrow_mut().push([s, dsdx, dsdy, t, dtdx, dtdy]);
            None
        };
        let stages = [TextureStage { unit: input.unit, env: TexEnvMode::Replace, env_color: [0.0; 4] }];
        let corners = [vertex!($o, &triangle[0]), vertex!($o, &triangle[1]), vertex!($o, &triangle[2])];
        let written = $o::raster::probe::raster_clipped(&mut target, &state, &sample, &stages, corners);
        (written, target.depth, seen.into_inner())
    }};
}

fn setup(input: &Input, triangle: &[port::Corner; 3], reached: &mut Reached) -> Option<String> {
    let triangle = black_box(triangle);
    let verdict = judged!(o => rastered!(o, input, triangle));
    reached.overflowed |= verdict.overflowed;
    let (written, depths, seen) = verdict.answer;
    let (vx, vy, vw, vh) = input.viewport;
    let bounds = oracle::raster::probe::scissor_bounds(input.size.0, input.size.1, input.scissor);
    let view = [vx as f32, vy as f32, vw as f32, vh as f32, input.size.1 as f32];
    reached.undivided |= triangle.iter().any(|c| c[3].abs() < 1e-9 || !c[3].is_finite());
    let ready = match bounds {
        Some((x0, y0, x1, y1)) if vw > 0 && vh > 0 => {
            let within = [x0 as u32, y0 as u32, x1 as u32, y1 as u32];
            let ready = port::setup(triangle, view, input.range, input.ccw, input.cull, within);
            if ready.is_none() && input.cull != 0 {
                reached.culled |= port::setup(triangle, view, input.range, input.ccw, 0, within).is_some();
            }
            ready
        }
        _ => None,
    };
    let Some(ready) = ready else {
        return (written > 0).then(|| format!("{written} pixels from the Rust, nothing to fill from the port"));
    };
    reached.triangles += 1;
    let mut calls = seen.iter();
    let mut count = 0;
    for (px, py) in pixels(ready.ends) {
        let Some((weights, z, rec)) = at_pixel(&ready.floats, px, py) else { continue };
        count += 1;
        let depth = depths[(py * input.size.0 + px) as usize];
        if !f32s(depth, z) {
            return Some(format!("depth at {px}, {py}: {depth:e} from the Rust, {z:e} from the port's corners"));
        }
        let Some(call) = calls.next() else {
            return Some(format!("the Rust stops before the pixel {px}, {py}"));
        };
        let values = |i: usize| triangle.map(|c| c[8 + 2 * input.unit + i]);
        for i in 0..2 {
            let port = port::attribute(&ready, values(i), weights, rec);
            let difference = floats(&format!("coordinate {i} and its slopes at {px}, {py}"), &call[3 * i..3 * i + 3], &port);
            if difference.is_some() {
                return difference;
            }
        }
    }
    reached.pixels += count;
    (written as u64 != count).then(|| format!("{written} pixels from the Rust, {count} from the port's box"))
}

fn pixels(ends: [u32; 4]) -> impl Iterator<Item = (u32, u32)> {
    let [x0, y0, x1, y1] = ends;
    (y0..y1).flat_map(move |y| (x0..x1).map(move |x| (x, y)))
}

/// Weights, depth and 1 / (interpolated 1/w) of a pixel, as raster_clipped writes them, from the port's corners and 1/area.
fn at_pixel(f: &[f32; 13], px: u32, py: u32) -> Option<([f32; 3], f32, f32)> {
    let (x, y) = ([f[0], f[4], f[8]], [f[1], f[5], f[9]]);
    let (z, inv_w, inv_area) = ([f[2], f[6], f[10]], [f[3], f[7], f[11]], f[12]);
    let (sx, sy) = (px as f32 + 0.5, py as f32 + 0.5);
    let w0 = ((x[2] - x[1]) * (sy - y[1]) - (y[2] - y[1]) * (sx - x[1])) * inv_area;
    let w1 = ((x[0] - x[2]) * (sy - y[2]) - (y[0] - y[2]) * (sx - x[2])) * inv_area;
    let w2 = 1.0 - w0 - w1;
    if w0 < -1e-6 || w1 < -1e-6 || w2 < -1e-6 {
        return None;
    }
    let iw = w0 * inv_w[0] + w1 * inv_w[1] + w2 * inv_w[2];
    if iw <= 0.0 || !iw.is_finite() {
        return None;
    }
    Some(([w0, w1, w2], w0 * z[0] + w1 * z[1] + w2 * z[2], 1.0 / iw))
}

fn smaller(input: &Input) -> Vec<Input> {
    let mut list = Vec::new();
    for i in 0..3 {
        for k in 0..17 {
            for x in shrink::float(input.corners[i][k]) {
                let mut less = input.clone();
                less.corners[i][k] = x;
                list.push(less);
            }
        }
    }
    if input.scissor.is_some() {
        list.push(Input { scissor: None, ..input.clone() });
    }
    if input.cull != 0 {
        list.push(Input { cull: 0, ..input.clone() });
    }
    list
}
