//! What the calls reached, and what they must reach.
use super::inputs::*;
use super::reading::{faults, ORDER};
use crate::{Ctx, Tally};
use ::port::clip::Corner;
use ::port::draw::Record;
use std::collections::BTreeMap;

/// What a case reached: counters by group and name, and the greatest channel differences by kind.
#[derive(Default)]
pub struct Reached {
    pub counts: BTreeMap<(&'static str, &'static str), u64>,
    pub greatest: BTreeMap<(&'static str, &'static str), u8>,
    /// The settings that a pixel was written under.
    pub settings: Vec<usize>,
}

impl Reached {
    pub fn add(&mut self, group: &'static str, name: &'static str, n: u64) {
        *self.counts.entry((group, name)).or_insert(0) += n;
    }

    pub fn merge(&mut self, other: Reached) {
        for ((group, name), n) in other.counts {
            self.add(group, name, n);
        }
        for (name, n) in other.greatest {
            let kept = self.greatest.entry(name).or_insert(0);
            *kept = n.max(*kept);
        }
    }

    /// The names of the counters above 0.
    pub fn met(&self) -> Vec<String> {
        let above = self.counts.iter().filter(|(_, &n)| n > 0);
        above.map(|((group, name), _)| format!("{group} {name}").trim().to_string()).collect()
    }

    pub fn tell(self, tally: &mut Tally) {
        for ((group, name), n) in self.counts {
            tally.add(format!("{group} {name}").trim(), n);
        }
        for ((levels, under), n) in self.greatest {
            tally.greatest(&format!("channel difference from the Rust's samples, {levels}{under}"), f64::from(n));
        }
    }
}

pub fn is_complete(record: &Record) -> bool {
    record.levels[0].width > 0 && record.levels[0].height > 0
}

const REFUSED: [&str; 8] = ["1", "2", "3", "4", "7", "6", "8", "5"];

pub fn refused(reached: &mut Reached, input: &Input, corners: &[Corner; 3], number: u32) {
    let Some(at) = ORDER.iter().position(|&n| n == number) else { return };
    reached.add("refused by", REFUSED[at], 1);
    if faults(input, corners)[at + 1..].contains(&true) {
        reached.add("with a later fault, refused by", REFUSED[at], 1);
    }
}

const PLANES: [&str; 7] = ["0", "1", "2", "3", "4", "5", "6"];

/// The corners of a triangle that is drawn.
pub fn shapes(reached: &mut Reached, input: &Input, corners: &[Corner; 3], count: u64) {
    let vertex = |c: &Corner| oracle::raster::Vertex { pos: [c[0], c[1], c[2], c[3]], ..Default::default() };
    let corners = corners.each_ref().map(vertex);
    reached.add("draws", "", 1);
    if count > 0 {
        reached.add("draws that write a pixel", "", 1);
        reached.add("pixels written", "", count);
    }
    let crossed: Vec<usize> = (0..7)
        .filter(|&plane| {
            let inside = corners.map(|v| oracle::raster::probe::clip_distance(&v, plane) >= 0.0);
            inside != [inside[0]; 3]
        })
        .collect();
    if count > 0 && !crossed.is_empty() {
        reached.add("draws clipped and visible", "", 1);
        for &plane in &crossed {
            reached.add("written and across plane", PLANES[plane], 1);
        }
        if crossed.len() > 2 {
            reached.add("written and across three planes or more", "", 1);
        }
    }
    let left = oracle::raster::probe::clip_frustum(&corners).map_or(0, |left| left.len());
    let off = |(x, y, w, h): (i32, i32, i32, i32)| {
        let empty = |start: i32, side: i32, end: u32| side <= 0 || start >= end as i32 || i64::from(start) + i64::from(side) <= 0;
        empty(x, w, input.width) || empty(y, h, input.height)
    };
    let w = corners.map(|v| v.pos[3].abs());
    let named = [
        (count > 0 && left > 3, "written and a fan of several triangles"),
        (input.settings.scissor().is_some_and(off), "draws with a scissor box off the target"),
        (w.iter().any(|&w| w < 1e-6), "draws with a w near 0"),
        (corners.iter().any(|v| v.pos.iter().any(|x| x.abs() > 100_000.0)), "draws with a number past 100,000"),
        (input.width == 0 || input.height == 0, "draws on a target with a side of 0"),
        ((input.width, input.height) == (800, 480), "draws at 800 by 480"),
    ];
    for (so, name) in named {
        if so {
            reached.add(name, "", 1);
        }
    }
}

/// Pixels written under each setting.
pub fn settled(reached: &mut Reached, input: &Input, written: u64) {
    let s = &input.settings;
    if written == 0 {
        return;
    }
    if s.depth_test {
        reached.add("pixels under depth comparison", name(&COMPARISONS, s.depth_func), written);
    }
    if s.alpha_test {
        reached.add("pixels under alpha comparison", name(&COMPARISONS, s.alpha_func), written);
    }
    if s.blend {
        reached.add("pixels blended by source factor", name(&FACTORS, s.blend_src), written);
        reached.add("pixels blended by destination factor", name(&FACTORS, s.blend_dst), written);
    }
    reached.add("pixels under culling", name(&CULLS, s.cull), written);
    reached.add("pixels with front face", name(&FACES, s.front_face), written);
    let switches = [
        (s.fog, "pixels in fog"),
        (!s.fog, "pixels without fog"),
        (s.smooth_shading, "pixels shaded smoothly"),
        (!s.smooth_shading, "pixels shaded flat"),
        (s.color_mask.contains(&false), "pixels with a masked channel"),
        (!s.depth_write, "pixels without depth write"),
        (s.boxed, "pixels in a scissor box"),
    ];
    for (so, name) in switches {
        if so {
            reached.add(name, "", written);
        }
    }
    reached.add("pixels through stages:", ["0", "1", "2", "3", "4"][input.stages.len()], written);
    let mut before: Vec<u32> = Vec::new();
    for stage in &input.stages {
        if is_complete(&input.units[stage.unit as usize]) {
            reached.add("pixels in environment", name(&ENVIRONMENTS, stage.env), written);
        } else {
            reached.add("pixels at a stage whose level 0 is incomplete", "", written);
        }
        if before.contains(&stage.unit) {
            reached.add("pixels with a unit in two stages", "", written);
        }
        if before.iter().any(|&u| u > stage.unit) {
            reached.add("pixels with a unit after a higher one", "", written);
        }
        before.push(stage.unit);
    }
}

/// How many values each setting has under which a pixel can be written: depth test, depth write, alpha test, source and destination
/// factor, culling, front face, mask, fog, shading, box, stages; and of the last complete stage its environment, filters and wraps.
const VALUES: [usize; 17] = [8, 2, 8, 12, 11, 3, 2, 16, 2, 2, 2, 5, 5, 6, 2, 2, 2];

/// The places of this call's values in one list of all.
pub fn chosen(input: &Input) -> Vec<usize> {
    let s = &input.settings;
    let place = |list: &[(u32, &str)], code: u32| list.iter().position(|(c, _)| *c == code).unwrap();
    let tested = |on: bool, code: u32| if on { place(&COMPARISONS, code) } else { 0 };
    let mask = s.color_mask.iter().fold(0, |n, &on| 2 * n + usize::from(on));
    let mut values: [Option<usize>; 17] = [None; 17];
    values[..12].copy_from_slice(&[
        Some(tested(s.depth_test, s.depth_func)),
        Some(s.depth_write.into()),
        Some(tested(s.alpha_test, s.alpha_func)),
        Some(if s.blend { 1 + place(&FACTORS, s.blend_src) } else { 0 }),
        s.blend.then(|| place(&FACTORS, s.blend_dst)),
        Some(place(&CULLS, s.cull)),
        Some(place(&FACES, s.front_face)),
        Some(mask),
        Some(s.fog.into()),
        Some(s.smooth_shading.into()),
        Some(s.boxed.into()),
        Some(input.stages.len()),
    ]);
    if let Some(stage) = input.stages.iter().rfind(|s| is_complete(&input.units[s.unit as usize])) {
        let r = &input.units[stage.unit as usize];
        let list = [
            place(&ENVIRONMENTS, stage.env),
            place(&FILTERS, r.min),
            place(&FILTERS, r.mag),
            place(&WRAPS, r.wrap_s),
            place(&WRAPS, r.wrap_t),
        ];
        values[12..].copy_from_slice(&list.map(Some));
    }
    let base = |i: usize| VALUES[..i].iter().sum::<usize>();
    (0..17).filter_map(|i| values[i].map(|v| base(i) + v)).collect()
}

/// The pairs of values of two settings that can meet: a source factor that is off meets no destination factor, no stage meets no texture.
fn possible_pairs() -> u64 {
    let all: usize = (0..17).map(|i| VALUES[i] * VALUES[..i].iter().sum::<usize>()).sum();
    (all - VALUES[4] - VALUES[12..].iter().sum::<usize>()) as u64
}

/// The counters of single calls, all of which the calls and the record must reach.
pub fn names() -> Vec<String> {
    let mut names = Vec::new();
    for (at, number) in REFUSED.iter().enumerate() {
        names.push(format!("refused by {number}"));
        if at < 7 {
            names.push(format!("with a later fault, refused by {number}"));
        }
    }
    let reached = |list: &[(u32, &str)]| -> Vec<String> {
        list.iter().filter(|(_, n)| !["Never", "FrontAndBack"].contains(n)).map(|(_, n)| n.to_string()).collect()
    };
    let groups = [
        ("pixels minified by", reached(&FILTERS)),
        ("pixels magnified by", reached(&FILTERS[..2])),
        ("pixels past the texture in s under", reached(&WRAPS)),
        ("pixels past the texture in t under", reached(&WRAPS)),
        ("pixels in environment", reached(&ENVIRONMENTS)),
        ("pixels blended by source factor", reached(&FACTORS)),
        ("pixels blended by destination factor", reached(&FACTORS)),
        ("pixels under depth comparison", reached(&COMPARISONS)),
        ("pixels under alpha comparison", reached(&COMPARISONS)),
        ("pixels under culling", reached(&CULLS)),
        ("pixels with front face", reached(&FACES)),
        ("pixels through stages:", PLANES[..5].iter().map(|n| n.to_string()).collect()),
        ("written and across plane", PLANES.iter().map(|n| n.to_string()).collect()),
    ];
    names.extend(groups.into_iter().flat_map(|(group, names)| names.into_iter().map(move |name| format!("{group} {name}"))));
    names.extend(
        [
            "pixels kept back by depth comparison Never",
            "pixels kept back by alpha comparison Never",
            "pixels kept back by culling FrontAndBack",
            "pixels in fog",
            "pixels without fog",
            "pixels shaded smoothly",
            "pixels shaded flat",
            "pixels with a masked channel",
            "pixels without depth write",
            "pixels in a scissor box",
            "pixels at a stage whose level 0 is incomplete",
            "pixels with a unit in two stages",
            "pixels with a unit after a higher one",
            "written and across three planes or more",
            "written and a fan of several triangles",
            "draws with a w near 0",
            "draws with a number past 100,000",
            "draws with a scissor box off the target",
            "draws on a target with a side of 0",
        ]
        .map(String::from),
    );
    names
}

pub fn floors(ctx: &mut Ctx) {
    ctx.floor("pairs of settings that a pixel was written under", possible_pairs());
    ctx.floor_share("draws that write a pixel", "draws", 40);
    ctx.floor_share("draws clipped and visible", "draws", 10);
    for name in names() {
        ctx.floor(&name, 1000);
    }
    for name in [
        "pairs with a shared edge that both write",
        "calls with the Rust's samples that must be equal",
        "calls with the Rust's samples of another level of detail",
        "calls with a wrong layout",
        "calls with an unknown code in a record that no stage names",
    ] {
        ctx.floor(name, 1000);
    }
    ctx.floor("draws at 800 by 480", 20);
    ctx.floor("draws with a box end past the largest i32", 20);
}
