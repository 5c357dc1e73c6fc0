//! Calls of the draw: triangles of every kind under every setting, and calls that are refused.
use super::reading::top_level;
use crate::floats::bounded;
use crate::{shrink, Rng};
use ::port::clip::Corner;
use ::port::draw::{Level, Record, Settings, Stage};

/// The depths that a target starts with.
#[derive(Clone, Copy, Debug)]
pub enum Depths {
    /// 0 to 1.
    Spread,
    /// Any pattern of bits.
    Any,
    All(f32),
}

/// One triangle drawn, or two that share an edge, on one target. The lengths may be wrong; contents come from the seed.
#[derive(Clone, Debug)]
pub struct Input {
    pub width: u32,
    pub height: u32,
    pub colors: usize,
    pub depths: usize,
    pub start: Depths,
    pub store: usize,
    pub units: [Record; 4],
    pub settings: Settings,
    pub stages: Vec<Stage>,
    pub triangles: Vec<[Corner; 3]>,
    pub seed: u64,
}

pub const COMPARISONS: [(u32, &str); 8] = [
    (0x200, "Never"),
    (0x201, "Less"),
    (0x202, "Equal"),
    (0x203, "Lequal"),
    (0x204, "Greater"),
    (0x205, "Notequal"),
    (0x206, "Gequal"),
    (0x207, "Always"),
];
pub const FACTORS: [(u32, &str); 11] = [
    (0, "Zero"),
    (1, "One"),
    (0x300, "SrcColor"),
    (0x301, "OneMinusSrcColor"),
    (0x302, "SrcAlpha"),
    (0x303, "OneMinusSrcAlpha"),
    (0x304, "DstAlpha"),
    (0x305, "OneMinusDstAlpha"),
    (0x306, "DstColor"),
    (0x307, "OneMinusDstColor"),
    (0x308, "SrcAlphaSaturate"),
];
pub const ENVIRONMENTS: [(u32, &str); 5] =
    [(0x2100, "Modulate"), (0x1e01, "Replace"), (0x2101, "Decal"), (0x0be2, "Blend"), (0x0104, "Add")];
pub const FILTERS: [(u32, &str); 6] = [
    (0x2600, "Nearest"),
    (0x2601, "Linear"),
    (0x2700, "NearestMipmapNearest"),
    (0x2701, "LinearMipmapNearest"),
    (0x2702, "NearestMipmapLinear"),
    (0x2703, "LinearMipmapLinear"),
];
pub const WRAPS: [(u32, &str); 2] = [(0x2901, "Repeat"), (0x812f, "ClampToEdge")];
pub const CULLS: [(u32, &str); 4] = [(0, "off"), (0x404, "Front"), (0x405, "Back"), (0x408, "FrontAndBack")];
pub const FACES: [(u32, &str); 2] = [(0x900, "Cw"), (0x901, "Ccw")];

pub fn name(list: &'static [(u32, &'static str)], code: u32) -> &'static str {
    list.iter().find(|(c, _)| *c == code).map_or("none", |(_, name)| name)
}

fn code(rng: &mut Rng, list: &[(u32, &str)]) -> u32 {
    rng.pick(list).0
}

/// The largest float that the checks let pass.
pub const LIMIT: f32 = 1048576.0;

/// The input of docs/DIFFERENCES.md on which the Rust as released overflows.
const OVERFLOWING: [[f32; 4]; 3] = [
    [-0.58440924, 1048576.0, -7.913417e-9, 1048576.0],
    [-1048576.0, 916127.4, -1098.8129, 27232.875],
    [3.587898e-9, -0.09214437, 0.0, 0.0],
];

// ---- triangles

/// Corners' positions of a kind.
fn positions(rng: &mut Rng, kind: u64, width: u32, height: u32) -> [[f32; 4]; 3] {
    let scaled = |w: f32, p: [f32; 3]| [p[0] * w, p[1] * w, p[2] * w, w];
    let level = rng.float(-1.0, 1.0);
    let z = |rng: &mut Rng| match rng.below(4) {
        0 => level,
        1 => 0.0,
        _ => rng.float(-1.0, 1.0),
    };
    let mut corners: [[f32; 4]; 3] = match kind {
        // Inside, with or without perspective.
        0..=8 => std::array::from_fn(|_| {
            let w = if kind < 4 { 1.0 } else { rng.float(0.05, 4.0) };
            let p = [rng.float(-1.0, 1.0), rng.float(-1.0, 1.0), z(rng)];
            scaled(w, p)
        }),
        // At pixel centres and edges, so that edges run through centres.
        9..=10 => {
            let w = rng.pick(&[1.0, 2.0, 0.5]);
            std::array::from_fn(|_| {
                let x = rng.between(0, 2 * i64::from(width)) as f32 / width.max(1) as f32 - 1.0;
                let y = rng.between(0, 2 * i64::from(height)) as f32 / height.max(1) as f32 - 1.0;
                scaled(w, [x, y, if kind == 9 { 0.0 } else { level }])
            })
        }
        // Across planes, often several at once.
        11..=15 => {
            let reach = rng.pick(&[1.2, 1.6, 3.0]);
            std::array::from_fn(|_| {
                let w = rng.float(0.1, 3.0);
                let depth = if rng.bool() { z(rng) } else { rng.float(-reach, reach) };
                scaled(w, [rng.float(-reach, reach), rng.float(-reach, reach), depth])
            })
        }
        // Over all of the viewport.
        16..=18 => {
            let far = rng.float(1.0, 8.0);
            let turn = rng.between(0, 2) as usize;
            let mut list = [[-far, -far], [3.0 * far, -far], [-far, 3.0 * far]];
            list.rotate_left(turn);
            if rng.bool() {
                list.swap(0, 1);
            }
            let flat = rng.bool();
            list.map(|[x, y]| {
                let depth = z(rng);
                scaled(if flat { 1.0 } else { rng.float(0.2, 2.0) }, [x, y, depth])
            })
        }
        // w of both signs.
        19 => std::array::from_fn(|_| [rng.float(-1.0, 1.0), rng.float(-1.0, 1.0), rng.float(-1.0, 1.0), rng.float(-1.0, 2.0)]),
        // w about 0.
        20 => std::array::from_fn(|_| {
            let w: f32 = rng.pick(&[0.0, -0.0, 1e-9, 9.9e-10, 1e-8, 2e-8, -1e-9, 1e-7, 1e-3, 1.0, 1.0]);
            let side = if rng.bool() { w.abs() } else { 1.0 };
            [rng.float(-side, side), rng.float(-side, side), rng.float(-side, side), w]
        }),
        // Slivers: two corners close together, or three almost on a line.
        21 => {
            let tiny = rng.pick(&[1e-2, 1e-3, 1e-4, 1e-6, 1e-7]);
            let (a, b) = ([rng.float(-1.2, 1.2), rng.float(-1.2, 1.2), 0.0, 1.0], [rng.float(-1.2, 1.2), rng.float(-1.2, 1.2), 0.3, 1.0]);
            let t = if rng.bool() { 0.0 } else { rng.unit() };
            let c: [f32; 4] = std::array::from_fn(|i| if i == 3 { 1.0 } else { a[i] + (b[i] - a[i]) * t + rng.float(-tiny, tiny) });
            [a, b, c]
        }
        // Huge, up to the limit.
        22 => {
            let w = rng.pick(&[1.0, 1024.0, 100_000.0, LIMIT]);
            std::array::from_fn(|_| {
                let far = rng.pick(&[w, w, 2.0 * w, LIMIT]);
                [rng.float(-far, far), rng.float(-far, far), rng.float(-far, far), rng.float(0.0, w)]
            })
        }
        _ => std::array::from_fn(|_| std::array::from_fn(|i| if i == 3 { bounded(rng).abs() } else { bounded(rng) })),
    };
    // A number at the end of a range, or exactly on a plane.
    if rng.chance(1, 16) {
        let (i, k) = (rng.below(3) as usize, rng.below(3) as usize);
        corners[i][k] = rng.pick(&[corners[i][3], -corners[i][3], LIMIT, -LIMIT, 0.0, -0.0]);
    }
    corners.map(|p| p.map(|x| x.clamp(-LIMIT, LIMIT)))
}

fn color(rng: &mut Rng) -> [f32; 4] {
    match rng.below(12) {
        0 => std::array::from_fn(|_| bounded(rng)),
        1 | 2 => std::array::from_fn(|_| rng.float(-0.5, 1.5)),
        3 => std::array::from_fn(|_| rng.pick(&[0.0, 1.0, 0.5, -1.0, 2.0, -0.0])),
        4..=6 => [rng.unit(), rng.unit(), rng.unit(), 1.0],
        _ => std::array::from_fn(|_| rng.unit()),
    }
}

fn corner(rng: &mut Rng, position: [f32; 4], reach: f32) -> Corner {
    let color = color(rng);
    std::array::from_fn(|i| match i {
        0..4 => position[i],
        4..8 => color[i - 4],
        16 => if rng.chance(1, 20) { bounded(rng) } else { rng.float(-1.0, 6.0) },
        _ => if rng.chance(1, 200) { bounded(rng) } else { rng.float(-reach, reach + 1.0) },
    })
}

fn triangles(rng: &mut Rng, width: u32, height: u32, k: u64) -> Vec<[Corner; 3]> {
    let kind = if rng.chance(1, 2) { rng.pick(&[0, 4, 11, 16]) } else { rng.below(24) };
    // Texture coordinates over some hundredths of the texture, or over many of it.
    let reach = rng.pick(&[0.02, 0.3, 1.0, 1.0, 2.0, 6.0, 40.0]);
    let spots = if k % 1000 == 0 { OVERFLOWING } else { positions(rng, kind, width, height) };
    let first = spots.map(|p| corner(rng, p, reach));
    let mut list = vec![first];
    if rng.chance(1, 8) {
        let third = positions(rng, kind, width, height)[0];
        let c = corner(rng, third, reach);
        let (i, j) = rng.pick(&[(0, 1), (1, 2), (2, 0), (1, 0), (2, 1), (0, 2)]);
        list.push(rng.pick(&[[first[i], first[j], c], [first[j], c, first[i]], [c, first[i], first[j]]]));
    }
    list
}

// ---- textures

fn side(rng: &mut Rng) -> u32 {
    match rng.below(8) {
        0 | 1 => 1 << rng.below(6),
        2 => 1 + rng.below(40) as u32,
        _ => 1 + rng.below(9) as u32,
    }
}

/// A texture in the store from `base` on, and where it ends.
pub fn record(rng: &mut Rng, base: u64) -> (Record, u64) {
    let mut levels = [Level::default(); 11];
    let (mut w, mut h) = (side(rng), side(rng));
    if rng.chance(1, 64) {
        (w, h) = rng.pick(&[(1024, 1), (1, 1024), (1024, 2)]);
    }
    if rng.chance(1, 12) {
        (w, h) = rng.pick(&[(0, 0), (0, 5), (3, 0)]);
    }
    let chain = w.max(h).max(1).ilog2() + 1;
    let count = if rng.chance(2, 3) { chain } else { 1 + rng.below(u64::from(chain)) as u32 };
    for (k, level) in levels.iter_mut().enumerate().take(count as usize) {
        *level = Level { kept: rng.pick(&[1, 1, 7, 0x8000_0000, u32::MAX]), width: (w >> k).max(1), height: (h >> k).max(1), place: 0 };
    }
    (levels[0].width, levels[0].height) = (w, h);
    levels[0].kept = rng.pick(&[0, 1, 1, 2]);
    // A kept level that breaks the chain, or stands past its gap.
    if rng.chance(1, 8) {
        let k = rng.between(1, 10) as usize;
        levels[k] = Level { kept: 1, width: rng.below(5) as u32, height: rng.below(5) as u32, place: 0 };
    }
    let mut at = base;
    let down = rng.bool();
    for i in 0..11 {
        let k = if down { 10 - i } else { i };
        if k == 0 || levels[k].kept != 0 {
            at += if rng.chance(1, 8) { rng.below(9) } else { 0 };
            levels[k].place = at;
            at += 4 * u64::from(levels[k].width) * u64::from(levels[k].height);
        }
    }
    // Half the time both filters are the same and use no mipmaps, so that the Rust's own samples must be the port's.
    let mag = rng.pick(&FILTERS[..2]).0;
    let min = if rng.chance(1, 3) { mag } else { code(rng, &FILTERS) };
    let mut record = Record { levels, top: 0, min, mag, wrap_s: code(rng, &WRAPS), wrap_t: code(rng, &WRAPS) };
    record.top = top_level(&record);
    (record, at)
}

/// Numbers of any kind where a record should be, its codes left alone.
fn garbage(rng: &mut Rng, record: &mut Record) {
    for level in &mut record.levels {
        *level = Level { kept: rng.u32(), width: rng.u32(), height: rng.below(2000) as u32, place: rng.u64() };
    }
    record.top = rng.u64();
}

// ---- calls

fn axis(rng: &mut Rng, side: i32) -> (i32, i32) {
    match rng.below(24) {
        0 => (rng.pick(&[-8192, -side, 0, side]), rng.pick(&[-8192, -1, 0, 1, 8192])),
        1 => (rng.between(-4, i64::from(side) + 4) as i32, rng.between(-1, i64::from(side) + 8) as i32),
        2 => (rng.between(-9, -1) as i32, side + 12),
        3 => {
            let start = rng.between(-9, -1) as i32;
            (start, rng.between(0, i64::from(side)) as i32 - start)
        }
        _ => {
            let start = rng.between(-2, i64::from(side) / 2);
            (start as i32, rng.between(i64::from(side) / 4, i64::from(side) + 2) as i32)
        }
    }
}

fn settings(rng: &mut Rng, width: u32, height: u32) -> Settings {
    let (w, h) = (width as i32, height as i32);
    let ((sx, sw), (sy, sh)) = (axis(rng, w), axis(rng, h));
    let boxed = rng.chance(5, 16);
    let viewport = match rng.below(16) {
        0 => (rng.between(-9, 9) as i32, rng.between(-9, 9) as i32, rng.between(-1, 40) as i32, rng.between(-1, 40) as i32),
        1 => (rng.between(-w as i64, 0) as i32, rng.between(-h as i64, 0) as i32, 2 * w + 1, 2 * h + 1),
        2 if rng.bool() => (
            rng.pick(&[-8192, -2048, -100, 0, 8192]),
            rng.pick(&[-8192, -2048, -100, 0, 8192]),
            rng.pick(&[i32::MIN, -1, 0, 4095, 4096]),
            rng.pick(&[0, 4096, 4096]),
        ),
        3 => (w / 4, h / 4, w / 2, h / 2),
        _ => (0, 0, w, h),
    };
    let depth_range = match rng.below(8) {
        0 => (1.0, 0.0),
        1 => (0.25, 0.75),
        2 => rng.pick(&[(-3.0, 2.5), (0.5, 0.5), (-LIMIT, LIMIT)]),
        3 => (bounded(rng), bounded(rng)),
        _ => (0.0, 1.0),
    };
    let all = rng.chance(5, 8);
    Settings {
        viewport,
        depth_range,
        boxed,
        // Where there is no box, its numbers may be any.
        scissor: if boxed || rng.bool() { (sx, sy, sw, sh) } else { (i32::MAX, 9000, i32::MIN, -1) },
        depth_test: rng.chance(3, 8),
        depth_func: code(rng, &COMPARISONS),
        depth_write: rng.chance(2, 3),
        alpha_test: rng.chance(1, 4),
        alpha_func: code(rng, &COMPARISONS),
        alpha_ref: match rng.below(8) {
            0 => bounded(rng),
            1 => rng.pick(&[0.0, 0.5, -1.0, 2.0]),
            2..=4 => 1.0,
            _ => rng.unit(),
        },
        blend: rng.chance(1, 2),
        blend_src: code(rng, &FACTORS),
        blend_dst: code(rng, &FACTORS),
        cull: if rng.chance(3, 4) { 0 } else { rng.pick(&[0x404, 0x405, 0x404, 0x405, 0x408]) },
        front_face: code(rng, &FACES),
        color_mask: std::array::from_fn(|_| all || rng.bool()),
        fog: false,
        fog_mode: rng.pick(&[0x2601, 0x800, 0x801]),
        fog_color: color(rng),
        fog_start: if rng.chance(1, 12) { bounded(rng) } else { rng.float(-1.0, 3.0) },
        fog_end: if rng.chance(1, 12) { bounded(rng) } else { rng.float(0.0, 8.0) },
        fog_density: if rng.chance(1, 4) { bounded(rng) } else { 1.0 },
        smooth_shading: rng.bool(),
        on: rng.pick(&[1, 1, 2, 0x0100, 0x8000_0000, u32::MAX]),
    }
}

fn stage(rng: &mut Rng) -> Stage {
    Stage { unit: rng.below(4) as u32, env: code(rng, &ENVIRONMENTS), env_color: color(rng) }
}

fn target_side(rng: &mut Rng) -> u32 {
    match rng.below(64) {
        0 => 0,
        1..=16 => rng.between(1, 12) as u32,
        17..=52 => rng.between(8, 32) as u32,
        _ => rng.between(1, 64) as u32,
    }
}

/// A call that is drawn.
pub fn drawn(rng: &mut Rng, k: u64) -> Input {
    let (mut width, mut height) = (target_side(rng), target_side(rng));
    if k % 8000 == 17 {
        (width, height) = (800, 480);
    } else if rng.chance(1, 400) {
        (width, height) = rng.pick(&[(4096, 1), (1, 4096), (4096, 0), (64, 64)]);
    }
    let (mut store, mut base) = (0, 0);
    let units: [Record; 4] = std::array::from_fn(|_| {
        // One after another, or over the one before.
        let place = if rng.chance(1, 8) { 0 } else { base };
        let (unit, end) = record(rng, place);
        base = end;
        store = store.max(end);
        unit
    });
    let count = rng.pick(&[0, 0, 0, 1, 1, 1, 1, 2, 2, 2, 3, 4]);
    let mut settings = settings(rng, width, height);
    if rng.chance(3, 8) {
        settings.fog = true;
        settings.fog_mode = 0x2601;
    }
    let pixels = width as usize * height as usize;
    let mut input = Input {
        width,
        height,
        colors: 4 * pixels,
        depths: pixels,
        start: match rng.below(8) {
            0 => Depths::Any,
            1 => Depths::All(0.0),
            2 => Depths::All(0.5),
            3 | 4 => Depths::All(1.0),
            _ => Depths::Spread,
        },
        store: store as usize + if rng.chance(1, 4) { rng.below(9) as usize } else { 0 },
        units,
        settings,
        stages: (0..count).map(|_| stage(rng)).collect(),
        triangles: triangles(rng, width, height, k),
        seed: rng.u64(),
    };
    if k % 1000 == 0 {
        let s = &mut input.settings;
        (s.viewport, s.boxed, s.cull) = ((-1024, -1024, 4096, 4096), false, 0);
    }
    // An alpha of 0 stays 0 in most environments, and Decal keeps any: Equal passes.
    if input.settings.alpha_test && input.settings.alpha_func == 0x202 {
        if rng.bool() {
            input.settings.alpha_ref = 0.0;
        } else {
            input.settings.smooth_shading = false;
            input.stages.iter_mut().for_each(|s| s.env = 0x2101);
        }
        input.triangles.iter_mut().flatten().for_each(|c| c[7] = input.settings.alpha_ref);
    }
    // Every depth is 0, as it was: Equal passes.
    if input.settings.depth_test && input.settings.depth_func == 0x202 && rng.bool() {
        input.settings.depth_range = (0.0, 0.0);
        input.start = Depths::All(0.0);
    }
    // No stage names this unit, so its record says nothing.
    for unit in 0..4 {
        if rng.chance(1, 4) && input.stages.iter().all(|s| s.unit as usize != unit) {
            garbage(rng, &mut input.units[unit]);
        }
    }
    input
}

fn off(rng: &mut Rng) -> f32 {
    rng.pick(&[f32::NAN, -f32::NAN, f32::INFINITY, f32::NEG_INFINITY, 1048576.1, -1048576.1, 1e30, f32::MAX, f32::from_bits(0x7f80_0001)])
}

fn past(rng: &mut Rng) -> i32 {
    rng.pick(&[8193, -8193, 10_000, i32::MAX, i32::MIN])
}

/// Makes the call fail the check with this number.
pub fn spoil(rng: &mut Rng, input: &mut Input, number: u32) {
    let s = &mut input.settings;
    match number {
        1 => match rng.below(6) {
            0 => input.colors = (input.colors as i64 + rng.pick(&[-4, -1, 1, 4])).max(0) as usize,
            1 => input.depths += 1 + rng.below(3) as usize,
            2 => input.depths = if input.depths == 0 { 1 } else { input.depths - 1 },
            3 => (input.width, input.height, input.colors, input.depths) = (4097, 1, 4 * 4097, 4097),
            4 => (input.width, input.height, input.colors, input.depths) = (rng.below(2) as u32, 4097, 0, 0),
            // Sides whose product wraps 32 bits.
            _ => (input.width, input.height, input.colors, input.depths) = (65536, 65536, 0, 0),
        },
        2 => {
            s.boxed = true;
            let mut numbers = [s.scissor.0, s.scissor.1, s.scissor.2, s.scissor.3].map(|n| n.clamp(-8192, 8192));
            numbers[rng.below(4) as usize] = past(rng);
            s.scissor = (numbers[0], numbers[1], numbers[2], numbers[3]);
        }
        3 => match rng.below(4) {
            0 => s.viewport.0 = past(rng),
            1 => s.viewport.1 = past(rng),
            2 => s.viewport.2 = rng.pick(&[4097, 8192, i32::MAX]),
            _ => s.viewport.3 = rng.pick(&[4097, 8192, i32::MAX]),
        },
        4 => match rng.below(7) {
            0 => s.depth_range.0 = off(rng),
            1 => s.depth_range.1 = off(rng),
            2 => s.alpha_ref = off(rng),
            3 => s.fog_color[rng.below(4) as usize] = off(rng),
            4 => s.fog_start = off(rng),
            5 => s.fog_end = off(rng),
            _ => s.fog_density = off(rng),
        },
        7 => {
            s.fog = true;
            s.fog_mode = rng.pick(&[0x800, 0x801]);
        }
        6 => match rng.below(3) {
            0 => {
                let count = rng.between(5, 7) as usize;
                while input.stages.len() < count {
                    let stage = stage(rng);
                    input.stages.push(stage);
                }
                // Past the fourth nothing is read.
                input.stages[4].env = rng.u32();
            }
            kind => {
                if input.stages.is_empty() {
                    input.stages.push(stage(rng));
                }
                let i = rng.below(input.stages.len() as u64) as usize;
                if kind == 1 {
                    input.stages[i].unit = rng.pick(&[4, 5, 256, 0x8000_0000, u32::MAX]);
                } else {
                    input.stages[i].env_color[rng.below(4) as usize] = off(rng);
                }
            }
        },
        8 => {
            if !input.stages.iter().any(|s| s.unit < 4) {
                input.stages.insert(0, stage(rng));
                input.stages.truncate(4);
            }
            let units: Vec<u32> = input.stages.iter().map(|s| s.unit).filter(|&u| u < 4).collect();
            let record = &mut input.units[rng.pick(&units) as usize];
            let end = input.store as u64;
            let level = &mut record.levels[0];
            match rng.below(6) {
                0 => record.top += 1,
                1 => record.top = rng.pick(&[11, u64::MAX, 1 << 32]),
                2 => (level.width, level.height) = rng.pick(&[(1025, 0), (0, 1025), (1025, 1025), (u32::MAX, u32::MAX)]),
                3 => level.place = end + 1,
                4 => level.place = rng.pick(&[u64::MAX, u64::MAX - 3, 1 << 32, 1 << 63]).max(end + 1),
                // Two levels over each other: a level kept past the chain's end lies on level 0.
                _ => {
                    if level.width == 0 || level.height == 0 {
                        level.place = end + 1;
                    } else {
                        let place = level.place + 4 * u64::from(level.width) * u64::from(level.height) - 1;
                        record.levels[10] = Level { kept: 1, width: 1, height: 1, place: place.min(end.saturating_sub(4)) };
                        record.top = top_level(record);
                    }
                }
            }
        }
        _ => {
            let i = rng.below(input.triangles.len() as u64) as usize;
            input.triangles[i][rng.below(3) as usize][rng.below(17) as usize] = off(rng);
        }
    }
}

/// Plainer calls.
pub fn smaller(input: &Input) -> Vec<Input> {
    let mut list = Vec::new();
    for triangles in shrink::fewer(&input.triangles) {
        if !triangles.is_empty() {
            list.push(Input { triangles, ..input.clone() });
        }
    }
    for stages in shrink::fewer(&input.stages) {
        list.push(Input { stages, ..input.clone() });
    }
    let (s, d) = (&input.settings, Settings::default());
    let plainer = [
        Settings { boxed: false, scissor: d.scissor, ..s.clone() },
        Settings { viewport: (0, 0, input.width as i32, input.height as i32), ..s.clone() },
        Settings { depth_range: d.depth_range, ..s.clone() },
        Settings { depth_test: false, depth_func: d.depth_func, ..s.clone() },
        Settings { depth_write: true, ..s.clone() },
        Settings { alpha_test: false, alpha_func: d.alpha_func, alpha_ref: 0.0, ..s.clone() },
        Settings { blend: false, blend_src: d.blend_src, blend_dst: d.blend_dst, ..s.clone() },
        Settings { blend_src: d.blend_src, ..s.clone() },
        Settings { blend_dst: d.blend_dst, ..s.clone() },
        Settings { cull: 0, front_face: d.front_face, ..s.clone() },
        Settings { color_mask: d.color_mask, ..s.clone() },
        Settings { fog: false, fog_mode: d.fog_mode, fog_color: d.fog_color, ..s.clone() },
        Settings { fog_start: 0.0, fog_end: 1.0, fog_density: 1.0, ..s.clone() },
        Settings { smooth_shading: true, ..s.clone() },
        Settings { on: 1, ..s.clone() },
    ];
    list.extend(plainer.into_iter().filter(|p| p != s).map(|settings| Input { settings, ..input.clone() }));
    let whole = input.colors == 4 * input.depths && input.depths == (input.width as usize).saturating_mul(input.height as usize);
    if whole {
        let sides = shrink::number(i64::from(input.width)).into_iter().map(|w| (w as u32, input.height));
        let sides = sides.chain(shrink::number(i64::from(input.height)).into_iter().map(|h| (input.width, h as u32)));
        for (width, height) in sides.filter(|&(w, h)| w <= input.width && h <= input.height) {
            let pixels = width as usize * height as usize;
            list.push(Input { width, height, colors: 4 * pixels, depths: pixels, ..input.clone() });
        }
    }
    if !matches!(input.start, Depths::All(_)) {
        list.push(Input { start: Depths::All(1.0), ..input.clone() });
    }
    for i in 0..input.triangles.len() {
        for j in 0..3 {
            for k in 0..17 {
                for x in shrink::float(input.triangles[i][j][k]) {
                    let mut less = input.clone();
                    less.triangles[i][j][k] = x;
                    list.push(less);
                }
            }
        }
    }
    list
}
