//! The draw of crates/tilefringe, and the layouts that it is handed (docs/INTERFACE.md). Numbers in layouts are little-endian.
use crate::clip::Corner;
use crate::raw::tf_draw_triangle;
use std::fmt;

/// A target that is lent.
pub struct Target<'a> {
    pub colors: &'a mut [u8],
    pub depths: &'a mut [f32],
    pub width: u32,
    pub height: u32,
}

/// What a draw reads, laid out as bytes.
#[derive(Clone, Debug, PartialEq)]
pub struct Layouts {
    pub units: Vec<u8>,
    pub settings: Vec<u8>,
    pub stages: Vec<u8>,
    pub vertices: Vec<u8>,
}

impl Layouts {
    pub fn of(units: &[Record; 4], settings: &Settings, stages: &[Stage], corners: &[Corner; 3]) -> Self {
        Self {
            units: units.iter().flat_map(Record::bytes).collect(),
            settings: settings.bytes(),
            stages: stages.iter().flat_map(Stage::bytes).collect(),
            vertices: vertices(corners),
        }
    }
}

/// The call's number, 0 where it was drawn, and its count of pixel writes.
pub fn draw_triangle(target: &mut Target, store: &[u8], layouts: &Layouts) -> (u32, u32) {
    let Layouts { units, settings, stages, vertices } = layouts;
    let answer = unsafe {
        tf_draw_triangle(
            target.colors.as_mut_ptr(),
            target.colors.len(),
            target.depths.as_mut_ptr(),
            target.depths.len(),
            target.width,
            target.height,
            store.as_ptr(),
            store.len(),
            units.as_ptr(),
            units.len(),
            settings.as_ptr(),
            settings.len(),
            stages.as_ptr(),
            stages.len(),
            vertices.as_ptr(),
            vertices.len(),
        )
    };
    ((answer >> 32) as u32, answer as u32)
}

fn words(numbers: &[u32]) -> Vec<u8> {
    numbers.iter().flat_map(|n| n.to_le_bytes()).collect()
}

/// Three vertices of seventeen floats.
pub fn vertices(corners: &[Corner; 3]) -> Vec<u8> {
    corners.iter().flatten().flat_map(|x| x.to_bits().to_le_bytes()).collect()
}

/// A level of a texture record; 0 in `kept` is absent, but for level 0.
#[derive(Clone, Copy, Debug, Default, PartialEq)]
pub struct Level {
    pub kept: u32,
    pub width: u32,
    pub height: u32,
    pub place: u64,
}

/// A texture record; filters and wraps are codes.
#[derive(Clone, PartialEq)]
pub struct Record {
    pub levels: [Level; 11],
    pub top: u64,
    pub min: u32,
    pub mag: u32,
    pub wrap_s: u32,
    pub wrap_t: u32,
}

impl Record {
    pub fn is_kept(&self, k: usize) -> bool {
        k == 0 || self.levels[k].kept != 0
    }

    pub fn bytes(&self) -> Vec<u8> {
        let mut bytes = Vec::with_capacity(244);
        for level in self.levels {
            bytes.extend(words(&[level.kept, level.width, level.height]));
            bytes.extend(level.place.to_le_bytes());
        }
        bytes.extend(self.top.to_le_bytes());
        bytes.extend(words(&[self.min, self.mag, self.wrap_s, self.wrap_t]));
        bytes
    }
}

impl fmt::Debug for Record {
    /// Its kept levels as width, height and place.
    fn fmt(&self, f: &mut fmt::Formatter<'_>) -> fmt::Result {
        write!(f, "record {{ min {:x}, mag {:x}, wraps {:x} {:x}, top {}", self.min, self.mag, self.wrap_s, self.wrap_t, self.top)?;
        for (k, level) in self.levels.iter().enumerate().filter(|(k, _)| self.is_kept(*k)) {
            write!(f, ", level {k}: {} by {} at {}", level.width, level.height, level.place)?;
        }
        write!(f, " }}")
    }
}

/// The settings of a draw; comparisons, factors, faces and the fog's curve are codes.
#[derive(Clone, Debug, PartialEq)]
pub struct Settings {
    pub viewport: (i32, i32, i32, i32),
    pub depth_range: (f32, f32),
    pub boxed: bool,
    pub scissor: (i32, i32, i32, i32),
    pub depth_test: bool,
    pub depth_func: u32,
    pub depth_write: bool,
    pub alpha_test: bool,
    pub alpha_func: u32,
    pub alpha_ref: f32,
    pub blend: bool,
    pub blend_src: u32,
    pub blend_dst: u32,
    pub cull: u32,
    pub front_face: u32,
    pub color_mask: [bool; 4],
    pub fog: bool,
    pub fog_mode: u32,
    pub fog_color: [f32; 4],
    pub fog_start: f32,
    pub fog_end: f32,
    pub fog_density: f32,
    pub smooth_shading: bool,
    /// What stands for a switch that is on: any number but 0.
    pub on: u32,
}

impl Default for Settings {
    /// Those of the Rust's `PipelineState::default`.
    fn default() -> Self {
        Self {
            viewport: (0, 0, 0, 0),
            depth_range: (0.0, 1.0),
            boxed: false,
            scissor: (0, 0, 0, 0),
            depth_test: false,
            depth_func: 0x0201,
            depth_write: true,
            alpha_test: false,
            alpha_func: 0x0207,
            alpha_ref: 0.0,
            blend: false,
            blend_src: 1,
            blend_dst: 0,
            cull: 0,
            front_face: 0x0901,
            color_mask: [true; 4],
            fog: false,
            fog_mode: 0x0800,
            fog_color: [0.0; 4],
            fog_start: 0.0,
            fog_end: 1.0,
            fog_density: 1.0,
            smooth_shading: true,
            on: 1,
        }
    }
}

impl Settings {
    /// The box, where there is one.
    pub fn scissor(&self) -> Option<(i32, i32, i32, i32)> {
        self.boxed.then_some(self.scissor)
    }

    pub fn bytes(&self) -> Vec<u8> {
        let on = |so: bool| if so { self.on } else { 0 };
        let (vx, vy, vw, vh) = self.viewport;
        let (sx, sy, sw, sh) = self.scissor;
        let mask = self.color_mask;
        let fog = self.fog_color;
        words(&[
            vx as u32,
            vy as u32,
            vw as u32,
            vh as u32,
            self.depth_range.0.to_bits(),
            self.depth_range.1.to_bits(),
            on(self.boxed),
            sx as u32,
            sy as u32,
            sw as u32,
            sh as u32,
            on(self.depth_test),
            self.depth_func,
            on(self.depth_write),
            on(self.alpha_test),
            self.alpha_func,
            self.alpha_ref.to_bits(),
            on(self.blend),
            self.blend_src,
            self.blend_dst,
            self.cull,
            self.front_face,
            on(mask[0]),
            on(mask[1]),
            on(mask[2]),
            on(mask[3]),
            on(self.fog),
            self.fog_mode,
            fog[0].to_bits(),
            fog[1].to_bits(),
            fog[2].to_bits(),
            fog[3].to_bits(),
            self.fog_start.to_bits(),
            self.fog_end.to_bits(),
            self.fog_density.to_bits(),
            on(self.smooth_shading),
        ])
    }
}

/// A texture stage; its environment is a code.
#[derive(Clone, Copy, Debug, PartialEq)]
pub struct Stage {
    pub unit: u32,
    pub env: u32,
    pub env_color: [f32; 4],
}

impl Stage {
    pub fn bytes(&self) -> Vec<u8> {
        let [r, g, b, a] = self.env_color.map(f32::to_bits);
        words(&[self.unit, self.env, r, g, b, a])
    }
}
