//! Samples of a 256 by 256 texture with its whole chain, at 16,384 coordinates along a turned plane; a unit is a sample.
use crate::Workload;
use oracle::texture::{Filter, MinFilter, Texture, Wrap};
use port::sampler::{samples, Coordinates, Numbers};
use std::hint::black_box;
const COUNT: usize = 16_384;
const SIDE: u32 = 256;

pub fn workloads() -> Vec<Box<dyn Workload>> {
    vec![
        Box::new(Sampling::new("nearest", 0.5, 0, MinFilter::Nearest, Filter::Nearest, 1.7)),
        Box::new(Sampling::new("linear", 0.55, 1, MinFilter::Linear, Filter::Linear, 1.7)),
        Box::new(Sampling::new("trilinear", 0.6, 5, MinFilter::LinearMipmapLinear, Filter::Linear, 1.7)),
    ]
}

struct Sampling {
    name: &'static str,
    bar: f64,
    store: Vec<u8>,
    numbers: Numbers,
    coords: Vec<Coordinates>,
    texture: Texture,
    port: Vec<u32>,
    rust: Vec<u32>,
    /// How far the two sides may lie apart in a channel: the level of detail is not the Rust's to the last bit.
    apart: i32,
}

fn noise(state: &mut u32) -> u32 {
    *state = state.wrapping_mul(1_664_525).wrapping_add(1_013_904_223);
    *state >> 8
}

impl Sampling {
    fn new(name: &'static str, bar: f64, min_code: u32, min: MinFilter, mag: Filter, step: f32) -> Self {
        let mut state = 1;
        let mut texture = Texture::default();
        let mut store = Vec::new();
        let mut numbers = [0; 49];
        let levels = SIDE.ilog2();
        for k in 0..=levels {
            let side = SIDE >> k;
            let rgba: Vec<u8> = (0..side * side * 4).map(|_| noise(&mut state) as u8).collect();
            let at = k as usize * 4;
            numbers[at..at + 4].copy_from_slice(&[1, store.len() as u32, side, side]);
            store.extend(&rgba);
            texture.define_level(k, side, side, rgba);
        }
        texture.min_filter = min;
        texture.mag_filter = mag;
        texture.wrap_s = Wrap::Repeat;
        texture.wrap_t = Wrap::Repeat;
        numbers[44] = levels;
        numbers[45] = min_code;
        numbers[46] = u32::from(mag == Filter::Linear);
        // Along rows of a plane that recedes: the gradients grow from a half to some texels.
        let coords = (0..COUNT)
            .map(|i| {
                let (x, y) = ((i % 128) as f32, (i / 128) as f32);
                let texel = step * (0.3 + y / 40.0) / SIDE as f32;
                let (c, s) = (0.8 * texel, 0.6 * texel);
                [x * c + y * 0.013, y * 0.017 - x * s, c, -s, s * 0.7, c * 0.7]
            })
            .collect();
        let apart = if min_code < 2 { 0 } else { 2 };
        Self { name, bar, store, numbers, coords, texture, port: vec![0; COUNT], rust: vec![0; COUNT], apart }
    }
}

impl Workload for Sampling {
    fn name(&self) -> &'static str {
        self.name
    }

    fn bar(&self) -> Option<f64> {
        Some(self.bar)
    }

    fn units(&self) -> u64 {
        COUNT as u64
    }

    fn port(&mut self) {
        let answer = samples(black_box(&self.store), black_box(&self.numbers), black_box(&self.coords), black_box(&mut self.port));
        assert_eq!(answer, 0);
    }

    fn rust(&mut self) {
        let texture = black_box(&self.texture);
        for (out, &[s, t, dsdx, dtdx, dsdy, dtdy]) in black_box(&mut self.rust).iter_mut().zip(black_box(&self.coords)) {
            *out = u32::from_le_bytes(texture.sample_with_gradients(s, t, dsdx, dtdx, dsdy, dtdy));
        }
    }

    fn agree(&mut self) -> bool {
        self.port.iter().zip(&self.rust).all(|(a, b)| {
            let (a, b) = (a.to_le_bytes(), b.to_le_bytes());
            (0..4).all(|i| (i32::from(a[i]) - i32::from(b[i])).abs() <= self.apart)
        })
    }
}
