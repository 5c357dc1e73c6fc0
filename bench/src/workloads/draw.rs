//! Draws on an 800 by 480 target; a unit is a pixel that is written, or for the small ones a triangle.
use crate::Workload;
use oracle::raster::{BlendFactor, FogMode, PipelineState, RenderTarget, TexEnvMode, TextureStage, Vertex};
use oracle::texture::{Filter, MinFilter, Texture, Wrap};
use port::clip::Corner;
use port::draw::{draw_triangle, Layouts, Level, Record, Settings, Stage, Target};
use std::hint::black_box;

const WIDTH: u32 = 800;
const HEIGHT: u32 = 480;
const PIXELS: usize = (WIDTH * HEIGHT) as usize;
const SIDE: u32 = 256;
/// No line slower than the Rust.
const BAR: Option<f64> = Some(1.0);

pub fn workloads() -> Vec<Box<dyn Workload>> {
    let smooth = Settings::default();
    let flat = Settings { smooth_shading: false, ..smooth.clone() };
    let blended = Settings { blend: true, blend_src: 0x302, blend_dst: 0x303, ..smooth.clone() };
    let fogged = Settings { fog: true, fog_mode: 0x2601, fog_color: [0.5, 0.6, 0.7, 1.0], fog_start: 1.0, fog_end: 5.0, ..smooth.clone() };
    let textured = |name, min, mag, times| {
        let mut draw = Draw::new(name, Unit::Pixel, vec![(whole(smooth.clone()), screen(times))], Some((min, mag)));
        draw.apart = if min < 0x2700 { 0 } else { 2 };
        Box::new(draw) as Box<dyn Workload>
    };
    let plain = |name, settings| Box::new(Draw::new(name, Unit::Pixel, vec![(whole(settings), screen(1.0))], None)) as Box<dyn Workload>;
    let small = |name, pixels| Box::new(Draw::new(name, Unit::Triangle, vec![(whole(flat.clone()), small_triangles(pixels))], None)) as Box<dyn Workload>;
    vec![
        plain("draw_flat", flat.clone()),
        plain("draw_smooth", smooth.clone()),
        textured("draw_nearest", 0x2600, 0x2600, 3.0),
        textured("draw_linear", 0x2601, 0x2601, 3.0),
        textured("draw_trilinear", 0x2703, 0x2601, 8.0),
        plain("draw_blended", blended),
        plain("draw_fogged", fogged),
        small("draw_small_12", 12),
        small("draw_small_184", 184),
        Box::new(Draw::new("draw_small_textured", Unit::Triangle, vec![(whole(flat.clone()), small_triangles(12))], Some((0x2600, 0x2600)))),
        Box::new(Draw::new("draw_clipped", Unit::Pixel, vec![(whole(smooth.clone()), crossing())], None)),
        Box::new(Draw::new("draw_panels", Unit::Pixel, panels(&flat), None)),
    ]
}

#[derive(Clone, Copy, PartialEq)]
enum Unit {
    Pixel,
    Triangle,
}

/// One list of draws, laid out for each side.
struct Draw {
    name: &'static str,
    unit: Unit,
    store: Vec<u8>,
    texture: Texture,
    stages: Vec<TextureStage>,
    /// Settings and the triangles drawn under them.
    groups: Vec<(PipelineState, Vec<[Vertex; 3]>)>,
    calls: Vec<Layouts>,
    units: u64,
    port: (Vec<u8>, Vec<f32>, u64),
    rust: (RenderTarget, u64),
    /// How far the two sides may lie apart in a channel: the level of detail is not the Rust's to the last bit.
    apart: u8,
}

impl Draw {
    fn new(name: &'static str, unit: Unit, list: Vec<(Settings, Vec<[Corner; 3]>)>, filters: Option<(u32, u32)>) -> Self {
        let (min, mag) = filters.unwrap_or((0x2600, 0x2600));
        let (record, store, texture) = textured(min, mag);
        let units: [Record; 4] = std::array::from_fn(|_| record.clone());
        let staged: Vec<Stage> = filters.iter().map(|_| Stage { unit: 0, env: 0x2100, env_color: [0.0; 4] }).collect();
        let stages = filters.iter().map(|_| TextureStage { unit: 0, env: TexEnvMode::Modulate, env_color: [0.0; 4] }).collect();
        let calls = list.iter().flat_map(|(s, triangles)| triangles.iter().map(|t| Layouts::of(&units, s, &staged, t))).collect();
        let groups = list.iter().map(|(s, triangles)| (state(s), triangles.iter().map(|t| t.each_ref().map(vertex)).collect())).collect();
        let mut draw = Self {
            name,
            unit,
            store,
            texture,
            stages,
            groups,
            calls,
            units: 1,
            port: (vec![0; 4 * PIXELS], vec![1.0; PIXELS], 0),
            rust: (RenderTarget::new(WIDTH, HEIGHT), 0),
            apart: 0,
        };
        draw.rust();
        draw.units = if unit == Unit::Pixel { draw.rust.1 } else { draw.calls.len() as u64 };
        draw.rust.0 = RenderTarget::new(WIDTH, HEIGHT);
        draw
    }
}

impl Workload for Draw {
    fn name(&self) -> &'static str {
        self.name
    }

    /// Above 1 where the compiler of today's kit leaves the port behind the Rust (docs/BENCHMARKS.md). A small textured draw reads four
    /// records from the guest's memory and checks what it samples, where the Rust has its texture at hand.
    fn bar(&self) -> Option<f64> {
        match self.name {
            "draw_blended" => Some(1.25),
            "draw_nearest" | "draw_clipped" => Some(1.15),
            "draw_fogged" | "draw_small_12" => Some(1.1),
            "draw_small_textured" => Some(1.5),
            _ => BAR,
        }
    }

    fn units(&self) -> u64 {
        self.units
    }

    fn port(&mut self) {
        let (colors, depths, written) = black_box(&mut self.port);
        let mut target = Target { colors, depths, width: WIDTH, height: HEIGHT };
        *written = 0;
        for call in black_box(&self.calls) {
            let (number, count) = draw_triangle(&mut target, black_box(&self.store), call);
            assert_eq!(number, 0);
            *written += u64::from(count);
        }
    }

    fn rust(&mut self) {
        let texture = black_box(&self.texture);
        let sample =
            |_: usize, s: f32, t: f32, dsdx: f32, dtdx: f32, dsdy: f32, dtdy: f32| Some(texture.sample_with_gradients(s, t, dsdx, dtdx, dsdy, dtdy));
        let (target, written) = black_box(&mut self.rust);
        *written = 0;
        for (state, triangles) in black_box(&self.groups) {
            for triangle in triangles {
                *written += oracle::raster::draw_triangle(target, state, &sample, &self.stages, *triangle) as u64;
            }
        }
    }

    fn agree(&mut self) -> bool {
        let ((colors, depths, count), (target, written)) = (&self.port, &self.rust);
        let near = colors.iter().zip(&target.color).all(|(a, b)| a.abs_diff(*b) <= self.apart);
        near && *depths == target.depth && count == written && (self.unit == Unit::Pixel || *count > 0)
    }
}

fn whole(settings: Settings) -> Settings {
    Settings { viewport: (0, 0, WIDTH as i32, HEIGHT as i32), ..settings }
}

fn state(s: &Settings) -> PipelineState {
    PipelineState {
        viewport: s.viewport,
        scissor: s.scissor(),
        blend: s.blend,
        blend_src: BlendFactor::from_enum(s.blend_src).unwrap(),
        blend_dst: BlendFactor::from_enum(s.blend_dst).unwrap(),
        fog: s.fog,
        fog_mode: FogMode::Linear,
        fog_color: s.fog_color,
        fog_start: s.fog_start,
        fog_end: s.fog_end,
        smooth_shading: s.smooth_shading,
        ..Default::default()
    }
}

fn vertex(c: &Corner) -> Vertex {
    Vertex {
        pos: [c[0], c[1], c[2], c[3]],
        color: [c[4], c[5], c[6], c[7]],
        texcoord: [[c[8], c[9]], [c[10], c[11]], [c[12], c[13]], [c[14], c[15]]],
        fog_depth: c[16],
    }
}

/// A texture of 256 by 256 with its whole chain.
fn textured(min: u32, mag: u32) -> (Record, Vec<u8>, Texture) {
    let mut texture = Texture::default();
    let mut store = Vec::new();
    let mut levels = [Level::default(); 11];
    let mut noise = 1u32;
    let top = SIDE.ilog2();
    for k in 0..=top {
        let side = SIDE >> k;
        let rgba: Vec<u8> = (0..side * side * 4)
            .map(|_| {
                noise = noise.wrapping_mul(1_664_525).wrapping_add(1_013_904_223);
                (noise >> 24) as u8
            })
            .collect();
        levels[k as usize] = Level { kept: 1, width: side, height: side, place: store.len() as u64 };
        store.extend(&rgba);
        texture.define_level(k, side, side, rgba);
    }
    texture.min_filter = match min {
        0x2600 => MinFilter::Nearest,
        0x2601 => MinFilter::Linear,
        _ => MinFilter::LinearMipmapLinear,
    };
    texture.mag_filter = if mag == 0x2600 { Filter::Nearest } else { Filter::Linear };
    (texture.wrap_s, texture.wrap_t) = (Wrap::Repeat, Wrap::Repeat);
    (Record { levels, top: u64::from(top), min, mag, wrap_s: 0x2901, wrap_t: 0x2901 }, store, texture)
}

/// A corner at a place of the target in pixels, from the bottom left, at this w.
fn corner(x: f32, y: f32, w: f32, color: [f32; 4], [s, t]: [f32; 2]) -> Corner {
    let pos = [(2.0 * x / WIDTH as f32 - 1.0) * w, (2.0 * y / HEIGHT as f32 - 1.0) * w, 0.25 * w, w];
    let mut c = [0.0; 17];
    c[..4].copy_from_slice(&pos);
    c[4..8].copy_from_slice(&color);
    c[8..10].copy_from_slice(&[s, t]);
    c[16] = 4.0 * w;
    c
}

/// Two triangles over the whole target, half as near at the top; the texture `times` across.
fn screen(times: f32) -> Vec<[Corner; 3]> {
    let (w, h) = (WIDTH as f32, HEIGHT as f32);
    let a = corner(0.0, 0.0, 0.5, [1.0, 0.2, 0.1, 0.6], [0.0, 0.0]);
    let b = corner(w, 0.0, 0.5, [0.1, 0.9, 0.3, 0.4], [times, 0.0]);
    let c = corner(w, h, 1.0, [0.2, 0.3, 1.0, 0.7], [times, 0.6 * times]);
    let d = corner(0.0, h, 1.0, [0.8, 0.8, 0.8, 0.5], [0.0, 0.6 * times]);
    vec![[a, b, c], [a, c, d]]
}

/// How many pixels the Rust writes of a triangle under default settings.
fn pixels(target: &mut RenderTarget, triangle: &[Corner; 3]) -> usize {
    let state = state(&whole(Settings::default()));
    oracle::raster::draw_triangle(target, &state, &|_, _, _, _, _, _, _| None, &[], triangle.each_ref().map(vertex))
}

/// 960 triangles of so many pixels each, a texel to a pixel.
fn small_triangles(wanted: usize) -> Vec<[Corner; 3]> {
    let at = |x: f32, y: f32, legs: (f32, f32)| {
        let color = [x / 800.0, y / 480.0, 0.5, 1.0];
        let place = |dx: f32, dy: f32| corner(x + dx, y + dy, 1.0, color, [(x + dx) / SIDE as f32, (y + dy) / SIDE as f32]);
        [place(0.3, 0.2), place(0.3 + legs.0, 0.6), place(0.8, 0.2 + legs.1)]
    };
    let all = |legs| (0..960).map(move |i| at((i % 40) as f32 * 19.0, (i / 40) as f32 * 19.0, legs));
    let mut target = RenderTarget::new(WIDTH, HEIGHT);
    let mut sizes = (1..200).flat_map(|a| (a..a + 12).map(move |b| (0.25 * a as f32, 0.25 * b as f32)));
    let legs = sizes.find(|&legs| all(legs).all(|triangle| pixels(&mut target, &triangle) == wanted));
    all(legs.expect("a triangle of so many pixels")).collect()
}

/// 256 triangles, each across one to three planes of the frustum.
fn crossing() -> Vec<[Corner; 3]> {
    let mut noise = 7u32;
    let mut unit = || {
        noise = noise.wrapping_mul(1_664_525).wrapping_add(1_013_904_223);
        (noise >> 8) as f32 / (1 << 24) as f32
    };
    let mut target = RenderTarget::new(WIDTH, HEIGHT);
    let mut list = Vec::new();
    while list.len() < 256 {
        let (x, y, along) = ([0.0, 800.0][list.len() % 2], [0.0, 480.0][list.len() / 2 % 2], unit());
        let (x, y) = if list.len() % 3 == 0 { (x, 480.0 * along) } else { (800.0 * along, y) };
        let triangle: [Corner; 3] = std::array::from_fn(|_| {
            let place = (x + 60.0 * (unit() - 0.5), y + 60.0 * (unit() - 0.5));
            let mut c = corner(place.0, place.1, 0.5 + unit(), [unit(), unit(), unit(), 1.0], [0.0, 0.0]);
            c[2] = c[3] * (2.4 * unit() - 1.2);
            c
        });
        let inside = triangle.each_ref().map(|c| oracle::raster::probe::inside_frustum(&vertex(c)));
        if inside.contains(&false) && pixels(&mut target, &triangle) >= 50 {
            list.push(triangle);
        }
    }
    list
}

/// Forty windows of 160 by 60, each with its viewport and scissor box, filled by flat tiles of 20 by 20.
fn panels(flat: &Settings) -> Vec<(Settings, Vec<[Corner; 3]>)> {
    let window = |k: usize| {
        let (x, y) = (160 * (k % 5) as i32, 60 * (k / 5) as i32);
        let settings = Settings { viewport: (x, y, 160, 60), boxed: true, scissor: (x, y, 160, 60), ..flat.clone() };
        let tiles = (0..24).flat_map(|i| {
            let (left, low) = ((i % 8) as f32 / 4.0 - 1.0, (i / 8) as f32 / 1.5 - 1.0);
            let place = |x: f32, y: f32| {
                let mut c = corner(0.0, 0.0, 1.0, [i as f32 / 24.0, k as f32 / 40.0, 0.5, 1.0], [0.0, 0.0]);
                (c[0], c[1]) = (x, y);
                c
            };
            let (a, b) = (place(left, low), place(left + 0.25, low));
            let (c, d) = (place(left + 0.25, low + 1.0 / 1.5), place(left, low + 1.0 / 1.5));
            [[a, b, c], [a, c, d]]
        });
        (settings, tiles.collect())
    };
    (0..40).map(window).collect()
}
