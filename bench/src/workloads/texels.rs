//! Images of 256 by 256 decoded; a unit is a texel.
use crate::Workload;
use std::hint::black_box;

const SIDE: u32 = 256;
const TEXELS: usize = (SIDE * SIDE) as usize;

pub fn workloads() -> Vec<Box<dyn Workload>> {
    let plain = [("plain_565", 0x1907, 0x8363), ("plain_rgb", 0x1907, 0x1401)];
    let compressed = [
        ("dxt1", 0x83F1),
        ("dxt3", 0x83F2),
        ("dxt5", 0x83F3),
        ("atc_interpolated", 0x87EE),
        ("palette4_rgb8", 0x8B90),
        ("palette4_565", 0x8B92),
        ("palette8_rgb8", 0x8B95),
        ("palette8_565", 0x8B97),
    ];
    let mut list: Vec<Box<dyn Workload>> = Vec::new();
    for (name, format, ty) in plain {
        list.push(Box::new(Decode::new(name, format, Some(ty))));
    }
    for (name, format) in compressed {
        list.push(Box::new(Decode::new(name, format, None)));
    }
    list
}

struct Decode {
    name: &'static str,
    format: u32,
    /// The type of a plain image.
    ty: Option<u32>,
    src: Vec<u8>,
    port: Vec<u8>,
    rust: Vec<u8>,
}

/// The code that the Rust decodes: it has no DXT3 and no DXT5, so there the ATC format with the same alphas in the same bytes.
fn beside(format: u32) -> u32 {
    match format {
        0x83F2 => 0x8C93,
        0x83F3 => 0x87EE,
        _ => format,
    }
}

impl Decode {
    fn new(name: &'static str, format: u32, ty: Option<u32>) -> Self {
        let mut state = 1u32;
        let src = (0..TEXELS * 4)
            .map(|_| {
                state = state.wrapping_mul(1_664_525).wrapping_add(1_013_904_223);
                (state >> 24) as u8
            })
            .collect();
        Self { name, format, ty, src, port: vec![0; TEXELS * 4], rust: Vec::new() }
    }
}

impl Workload for Decode {
    fn name(&self) -> &'static str {
        self.name
    }

    fn bar(&self) -> Option<f64> {
        Some(1.0)
    }

    fn units(&self) -> u64 {
        TEXELS as u64
    }

    fn port(&mut self) {
        let (src, out) = (black_box(&self.src[..]), black_box(&mut self.port[..]));
        let number = match self.ty {
            Some(ty) => port::texels::decode_to_rgba(src, SIDE, SIDE, self.format, ty, out),
            None => port::texels::decode_compressed_to_rgba(src, SIDE, SIDE, self.format, out),
        };
        assert_eq!(number, 0);
    }

    fn rust(&mut self) {
        let src = black_box(&self.src[..]);
        let image = match self.ty {
            Some(ty) => oracle::texture::decode_to_rgba(src, SIDE, SIDE, self.format, ty),
            None => oracle::texture::decode_compressed_to_rgba(src, SIDE, SIDE, beside(self.format)),
        };
        self.rust = black_box(image.expect("the Rust decodes it"));
    }

    fn agree(&mut self) -> bool {
        let from = if beside(self.format) == self.format { 0 } else { 3 };
        self.port.len() == self.rust.len() && self.port.chunks(4).zip(self.rust.chunks(4)).all(|(port, rust)| port[from..] == rust[from..])
    }
}
