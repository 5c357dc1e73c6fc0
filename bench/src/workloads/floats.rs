//! Float helpers over 16,384 floats; a unit is a float.
use crate::Workload;
use std::hint::black_box;

const COUNT: usize = 16_384;

pub fn workloads() -> Vec<Box<dyn Workload>> {
    vec![Box::new(ToByte::new()), Box::new(Floor::new())]
}

/// Floats around 0 to 1, a few of them far off.
fn inputs() -> Vec<f32> {
    let mut state = 1u32;
    (0..COUNT)
        .map(|i| {
            state = state.wrapping_mul(1_664_525).wrapping_add(1_013_904_223);
            let unit = (state >> 8) as f32 / (1 << 24) as f32;
            if i % 64 == 0 { unit * 300.0 - 100.0 } else { unit * 1.2 - 0.1 }
        })
        .collect()
}

struct ToByte {
    src: Vec<f32>,
    port: Vec<u8>,
    rust: Vec<u8>,
}

impl ToByte {
    fn new() -> Self {
        Self { src: inputs(), port: vec![0; COUNT], rust: vec![0; COUNT] }
    }
}

impl Workload for ToByte {
    fn name(&self) -> &'static str {
        "to_byte"
    }

    fn bar(&self) -> Option<f64> {
        Some(1.65)
    }

    fn units(&self) -> u64 {
        COUNT as u64
    }

    fn port(&mut self) {
        port::floats::to_bytes(black_box(&self.src), black_box(&mut self.port));
    }

    fn rust(&mut self) {
        for (out, &x) in black_box(&mut self.rust).iter_mut().zip(black_box(&self.src)) {
            *out = oracle::raster::probe::to_byte(x);
        }
    }

    fn agree(&mut self) -> bool {
        self.port == self.rust
    }
}

struct Floor {
    src: Vec<f32>,
    port: Vec<f32>,
    rust: Vec<f32>,
}

impl Floor {
    fn new() -> Self {
        let src = inputs().iter().map(|x| x * 1000.0).collect();
        Self { src, port: vec![0.0; COUNT], rust: vec![0.0; COUNT] }
    }
}

impl Workload for Floor {
    fn name(&self) -> &'static str {
        "floor"
    }

    fn bar(&self) -> Option<f64> {
        Some(1.0)
    }

    fn units(&self) -> u64 {
        COUNT as u64
    }

    fn port(&mut self) {
        port::floats::floors(black_box(&self.src), black_box(&mut self.port));
    }

    fn rust(&mut self) {
        for (out, x) in black_box(&mut self.rust).iter_mut().zip(black_box(&self.src)) {
            *out = x.floor();
        }
    }

    fn agree(&mut self) -> bool {
        self.port.iter().zip(&self.rust).all(|(a, b)| a.to_bits() == b.to_bits())
    }
}
