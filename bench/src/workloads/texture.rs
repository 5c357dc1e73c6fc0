//! Texture objects; a unit is a byte.
use crate::{agree_from, Workload};
use oracle::texture::Texture;
use std::hint::black_box;

const SIDE: u32 = 256;
const BYTES: usize = 4 * (SIDE * SIDE) as usize;
const PATCH: u32 = 64;

pub fn workloads() -> Vec<Box<dyn Workload>> {
    vec![Box::new(Define::new()), Box::new(Patch::new())]
}

fn image(n: usize, seed: u8) -> Vec<u8> {
    (0..n).map(|i| (i as u8).wrapping_mul(31).wrapping_add(seed)).collect()
}

fn new_record() -> Vec<u8> {
    let mut record = vec![0; port::texture::RECORD];
    assert_eq!(port::texture::new_texture(&mut record), 0);
    record
}

/// Level 0 of 256 by 256 texels. The Rust keeps its own texels: it is handed a copy of the image.
struct Define {
    image: Vec<u8>,
    record: Vec<u8>,
    store: Vec<u8>,
    rust: Texture,
}

impl Define {
    fn new() -> Self {
        Self { image: image(BYTES, 5), record: new_record(), store: vec![0; BYTES], rust: Texture::default() }
    }
}

impl Workload for Define {
    fn name(&self) -> &'static str {
        "define_level"
    }

    fn bar(&self) -> Option<f64> {
        Some(1.0)
    }

    fn units(&self) -> u64 {
        BYTES as u64
    }

    fn port(&mut self) {
        let number = port::texture::define_level(&mut self.record, black_box(&mut self.store), 0, SIDE, SIDE, 0, black_box(&self.image));
        assert_eq!(number, 0);
    }

    fn rust(&mut self) {
        let copy = black_box(&self.image).clone();
        black_box(&mut self.rust).define_level(0, SIDE, SIDE, copy);
    }

    fn agree(&mut self) -> bool {
        self.store == self.rust.rgba
    }
}

/// A patch of 64 by 64 texels inside a level of 256 by 256, of one texture after the other. How fast a copy is depends on where in memory its
/// two ends lie: the port's store is the Rust's own texels, so that neither side has the better places.
struct Patch {
    patch: Vec<u8>,
    textures: Vec<(Vec<u8>, Texture)>,
}

const TEXTURES: usize = 8;

impl Patch {
    fn new() -> Self {
        let mut textures = Vec::new();
        for _ in 0..TEXTURES {
            let mut record = new_record();
            let mut texture = Texture::default();
            texture.define_level(0, SIDE, SIDE, vec![0; BYTES]);
            assert_eq!(port::texture::define_level(&mut record, &mut texture.rgba, 0, SIDE, SIDE, 0, &image(BYTES, 9)), 0);
            textures.push((record, texture));
        }
        Self { patch: image(4 * (PATCH * PATCH) as usize, 77), textures }
    }
}

impl Workload for Patch {
    fn name(&self) -> &'static str {
        "patch_level"
    }

    fn bar(&self) -> Option<f64> {
        Some(1.0)
    }

    fn units(&self) -> u64 {
        TEXTURES as u64 * u64::from(4 * PATCH * PATCH)
    }

    fn port(&mut self) {
        for (record, texture) in &mut self.textures {
            let number = port::texture::patch_level(record, black_box(&mut texture.rgba), 0, [100, 60, PATCH, PATCH], black_box(&self.patch));
            assert_eq!(number, 0);
        }
    }

    fn rust(&mut self) {
        for (_, texture) in &mut self.textures {
            black_box(texture).patch_level(0, 100, 60, PATCH, PATCH, black_box(&self.patch)).expect("inside the level");
        }
    }

    fn agree(&mut self) -> bool {
        let start = image(BYTES, 9);
        agree_from(
            self,
            |work| work.textures.iter_mut().for_each(|(_, texture)| texture.rgba.copy_from_slice(&start)),
            |work| work.textures.iter().map(|(_, texture)| texture.rgba.clone()).collect::<Vec<_>>(),
        )
    }
}
