//! Clears and the 5-6-5 export at 800 by 480; a unit is a pixel that is written. Port and Rust clear one target in turn: how fast a store is
//! depends on where the process has its memory, and so neither side has the better places.
use crate::{agree_from, Workload};
use oracle::raster::RenderTarget;
use port::target::Scissor;
use std::hint::black_box;

const WIDTH: u32 = 800;
const HEIGHT: u32 = 480;
const PIXELS: usize = (WIDTH * HEIGHT) as usize;
/// Inside the target, away from its edges.
const BOX: Scissor = Some((100, 60, 600, 360));
const BOXED: u64 = 600 * 360;
const RGBA: [u8; 4] = [17, 34, 51, 255];
const DEPTH: f32 = 0.75;

pub fn workloads() -> Vec<Box<dyn Workload>> {
    vec![
        Box::new(ClearColor::new("clear_color", None)),
        Box::new(ClearColor::new("clear_color_box", BOX)),
        Box::new(ClearDepth::new("clear_depth", None)),
        Box::new(ClearDepth::new("clear_depth_box", BOX)),
        Box::new(Export::new()),
    ]
}

fn units(scissor: Scissor) -> u64 {
    if scissor.is_some() { BOXED } else { PIXELS as u64 }
}

struct ClearColor {
    name: &'static str,
    scissor: Scissor,
    target: RenderTarget,
}

impl ClearColor {
    fn new(name: &'static str, scissor: Scissor) -> Self {
        Self { name, scissor, target: RenderTarget::new(WIDTH, HEIGHT) }
    }
}

impl Workload for ClearColor {
    fn name(&self) -> &'static str {
        self.name
    }

    fn bar(&self) -> Option<f64> {
        Some(1.0)
    }

    fn units(&self) -> u64 {
        units(self.scissor)
    }

    fn port(&mut self) {
        port::target::clear_color(black_box(&mut self.target.color), PIXELS, WIDTH, HEIGHT, black_box(RGBA), black_box(self.scissor));
    }

    fn rust(&mut self) {
        black_box(&mut self.target).clear_color(black_box(RGBA), black_box(self.scissor));
    }

    fn agree(&mut self) -> bool {
        agree_from(self, |work| work.target.color.fill(0), |work| work.target.color.clone())
    }
}

struct ClearDepth {
    name: &'static str,
    scissor: Scissor,
    target: RenderTarget,
}

impl ClearDepth {
    fn new(name: &'static str, scissor: Scissor) -> Self {
        Self { name, scissor, target: RenderTarget::new(WIDTH, HEIGHT) }
    }
}

impl Workload for ClearDepth {
    fn name(&self) -> &'static str {
        self.name
    }

    fn bar(&self) -> Option<f64> {
        Some(1.0)
    }

    fn units(&self) -> u64 {
        units(self.scissor)
    }

    fn port(&mut self) {
        port::target::clear_depth(black_box(&mut self.target.depth), 4 * PIXELS, WIDTH, HEIGHT, black_box(DEPTH), black_box(self.scissor));
    }

    fn rust(&mut self) {
        black_box(&mut self.target).clear_depth(black_box(DEPTH), black_box(self.scissor));
    }

    fn agree(&mut self) -> bool {
        agree_from(self, |work| work.target.depth.fill(1.0), |work| work.target.depth.clone())
    }
}

struct Export {
    target: RenderTarget,
    port: Vec<u8>,
    rust: Vec<u8>,
}

impl Export {
    fn new() -> Self {
        let mut target = RenderTarget::new(WIDTH, HEIGHT);
        let mut state = 1u32;
        for b in &mut target.color {
            state = state.wrapping_mul(1_664_525).wrapping_add(1_013_904_223);
            *b = (state >> 24) as u8;
        }
        Self { target, port: vec![0; 2 * PIXELS], rust: vec![0; 2 * PIXELS] }
    }
}

impl Workload for Export {
    fn name(&self) -> &'static str {
        "to_rgb565"
    }

    fn bar(&self) -> Option<f64> {
        Some(1.0)
    }

    fn units(&self) -> u64 {
        PIXELS as u64
    }

    fn port(&mut self) {
        port::target::to_rgb565(black_box(&self.target.color), PIXELS, WIDTH, HEIGHT, black_box(&mut self.port));
    }

    fn rust(&mut self) {
        black_box(&self.target).to_rgb565(black_box(&mut self.rust));
    }

    fn agree(&mut self) -> bool {
        self.port == self.rust
    }
}
