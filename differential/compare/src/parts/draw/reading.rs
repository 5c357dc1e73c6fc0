//! Document 01, "Operations and their refusals", Draw, read plainly; and the layouts of docs/INTERFACE.md.
use super::inputs::Input;
use ::port::clip::Corner;
use ::port::draw::{Layouts, Record};

/// The numbers in the order of the checks.
pub const ORDER: [u32; 8] = [1, 2, 3, 4, 7, 6, 8, 5];

/// The rule of 4.
fn passes(x: &f32) -> bool {
    x.is_finite() && x.abs() <= 1048576.0
}

fn near(n: i32) -> bool {
    (-8192..=8192).contains(&n)
}

/// Which checks a call fails, each on its own, in the order of the checks.
pub fn faults(input: &Input, corners: &[Corner; 3]) -> [bool; 8] {
    let Input { settings, stages, units, .. } = input;
    let pixels = u64::from(input.width) * u64::from(input.height);
    let target = input.width > 4096 || input.height > 4096 || input.colors as u64 != 4 * pixels || input.depths as u64 != pixels;
    let scissor = settings.scissor().is_some_and(|(x, y, w, h)| ![x, y, w, h].into_iter().all(near));
    let (x, y, w, h) = settings.viewport;
    let viewport = !near(x) || !near(y) || w > 4096 || h > 4096;
    let (dn, df) = settings.depth_range;
    let [r, g, b, a] = settings.fog_color;
    let floats = [dn, df, settings.alpha_ref, r, g, b, a, settings.fog_start, settings.fog_end, settings.fog_density];
    let curve = settings.fog && settings.fog_mode != 0x2601;
    let staged = stages.len() > 4 || stages.iter().any(|s| s.unit > 3 || !s.env_color.iter().all(passes));
    let record = stages.iter().any(|s| units.get(s.unit as usize).is_some_and(|u| !is_valid(u, input.store as u64)));
    let vertex = !corners.iter().flatten().all(passes);
    [target, scissor, viewport, !floats.iter().all(passes), curve, staged, record, vertex]
}

/// The number that the call is refused with, or 0.
pub fn refusal(input: &Input, corners: &[Corner; 3]) -> u32 {
    faults(input, corners).iter().position(|&fault| fault).map_or(0, |at| ORDER[at])
}

/// 8: no kept level past the store, no two overlapping, no side above 1,024, the top level right.
pub fn is_valid(record: &Record, store: u64) -> bool {
    let kept: Vec<(u128, u128)> = (0..11)
        .filter(|&k| record.is_kept(k))
        .map(|k| (u128::from(record.levels[k].place), 4 * u128::from(record.levels[k].width) * u128::from(record.levels[k].height)))
        .collect();
    let sides = (0..11).filter(|&k| record.is_kept(k)).all(|k| record.levels[k].width <= 1024 && record.levels[k].height <= 1024);
    let fit = kept.iter().all(|&(place, size)| place + size <= u128::from(store));
    let apart = |&(p, n): &(u128, u128), &(q, m): &(u128, u128)| n == 0 || m == 0 || p + n <= q || q + m <= p;
    let parted = (0..kept.len()).all(|i| (0..i).all(|j| apart(&kept[i], &kept[j])));
    sides && fit && parted && record.top == top_level(record)
}

/// The last level before the first that breaks the chain.
pub fn top_level(record: &Record) -> u64 {
    let (mut w, mut h) = (record.levels[0].width, record.levels[0].height);
    if w == 0 || h == 0 {
        return 0;
    }
    let mut top = 0;
    while (w > 1 || h > 1) && top < 10 {
        (w, h) = ((w / 2).max(1), (h / 2).max(1));
        let next = record.levels[top + 1];
        if next.kept == 0 || (next.width, next.height) != (w, h) {
            break;
        }
        top += 1;
    }
    top as u64
}

const MIN: [u32; 6] = [0x2600, 0x2601, 0x2700, 0x2701, 0x2702, 0x2703];
const WRAP: [u32; 2] = [0x2901, 0x812f];
const COMPARE: [u32; 8] = [0x200, 0x201, 0x202, 0x203, 0x204, 0x205, 0x206, 0x207];
const FACTOR: [u32; 11] = [0, 1, 0x300, 0x301, 0x302, 0x303, 0x304, 0x305, 0x306, 0x307, 0x308];
const ENVIRONMENT: [u32; 5] = [0x2100, 0x1e01, 0x2101, 0x0be2, 0x0104];

/// Codes of a texture record and of the settings: where they stand, and what they may be.
pub const RECORD_CODES: [(usize, &[u32]); 4] = [(228, &MIN), (232, &[0x2600, 0x2601]), (236, &WRAP), (240, &WRAP)];
pub const SETTINGS_CODES: [(usize, &[u32]); 7] = [
    (48, &COMPARE),
    (60, &COMPARE),
    (72, &FACTOR),
    (76, &FACTOR),
    (80, &[0, 0x404, 0x405, 0x408]),
    (84, &[0x900, 0x901]),
    (108, &[0x2601, 0x800, 0x801]),
];

fn known(bytes: &[u8], at: usize, codes: &[u32]) -> bool {
    codes.contains(&u32::from_le_bytes([bytes[at], bytes[at + 1], bytes[at + 2], bytes[at + 3]]))
}

/// Whether one of the stages in use, of which the first four are read, names the unit, so that its record is looked at.
pub fn is_named(stages: &[u8], unit: usize) -> bool {
    stages.chunks_exact(24).take(4).any(|stage| stage[..4] == (unit as u32).to_le_bytes())
}

/// Whether the layouts are a call of document 01: their lengths and every code that is read.
pub fn is_call(layouts: &Layouts) -> bool {
    let Layouts { units, settings, stages, vertices } = layouts;
    if units.len() != 976 || settings.len() != 144 || stages.len() % 24 != 0 || vertices.len() != 204 {
        return false;
    }
    (0..4).all(|u| !is_named(stages, u) || RECORD_CODES.iter().all(|&(at, codes)| known(units, 244 * u + at, codes)))
        && SETTINGS_CODES.iter().all(|&(at, codes)| known(settings, at, codes))
        && (0..(stages.len() / 24).min(4)).all(|i| known(stages, 24 * i + 4, &ENVIRONMENT))
}
