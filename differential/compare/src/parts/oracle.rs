//! The judge itself: the input of docs/DIFFERENCES.md on which the Rust as released overflows.
use crate::judge::caught;
use crate::{judged, Ctx, Part};

pub const PART: Part = Part { name: "oracle", cases: 1, run, record: None };

const POSITIONS: [[f32; 4]; 3] = [
    [-0.58440924, 1048576.0, -7.913417e-9, 1048576.0],
    [-1048576.0, 916127.4, -1098.8129, 27232.875],
    [3.587898e-9, -0.09214437, 0.0, 0.0],
];
const VIEWPORT: (i32, i32, i32, i32) = (-1024, -1024, 4096, 4096);

/// How many pixels of an 8 by 8 target the crate `$o` writes.
macro_rules! written {
    ($o:ident) => {{
        let mut target = $o::raster::RenderTarget::new(8, 8);
        let state = $o::raster::PipelineState { viewport: VIEWPORT, ..Default::default() };
        let corners = POSITIONS.map(|pos| $o::raster::Vertex { pos, ..Default::default() });
        $o::raster::draw_triangle(&mut target, &state, &|_, _, _, _, _, _, _| None, &[], corners)
    }};
}

fn run(ctx: &mut Ctx) {
    let released = caught(|| written!(oracle));
    let saturating = caught(|| written!(oracle_saturating));
    let checked = caught(|| written!(oracle_checked));
    let verdict = judged!(o => written!(o));
    ctx.tally.add("pixels written as released", *released.as_ref().unwrap_or(&0) as u64);
    ctx.tally.add("pixels written with saturating box ends", *saturating.as_ref().unwrap_or(&0) as u64);
    ctx.tally.cases += 4;
    if released != Ok(0) {
        ctx.tally.difference(format!("the Rust as released writes {released:?}, and not 0 pixels"));
    }
    if saturating != Ok(64) {
        ctx.tally.difference(format!("the saturating copy writes {saturating:?}, and not 64 pixels"));
    }
    if checked != Err("attempt to add with overflow".to_string()) {
        ctx.tally.difference(format!("the checked copy answers {checked:?}, and does not overflow"));
    }
    if (verdict.answer, verdict.overflowed) != (64, true) {
        ctx.tally.difference(format!("the judge answers {verdict:?}, and not 64 after an overflow"));
    }
}
