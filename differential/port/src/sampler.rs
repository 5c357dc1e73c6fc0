//! crates/probes/src/probe_sampler.rt, and the sample of the C interface.
use crate::raw::tf_sample;

unsafe extern "C" {
    pub safe fn probe_q_of(width: u32, height: u32, dsdx: f32, dtdx: f32, dsdy: f32, dtdy: f32) -> f64;
    fn probe_steps(src: *const f64, src_len: usize, out: *mut u64, out_len: usize);
    fn probe_samples(
        store: *const u8,
        store_len: usize,
        numbers: *const u32,
        numbers_len: usize,
        coords: *const f32,
        coords_len: usize,
        out: *mut u32,
        out_len: usize,
    ) -> u32;
}

/// n of each q that is finite and above 1, else 0: both slices have one length.
pub fn steps(src: &[f64], out: &mut [u64]) {
    assert_eq!(src.len(), out.len());
    unsafe { probe_steps(src.as_ptr(), src.len(), out.as_mut_ptr(), out.len()) }
}

/// A texture's record: present, place, width and height of each of eleven levels; the top level; the minifying filter (0 to 5)
/// and the magnifying one (0, 1); the two wraps (0 repeat, 1 clamp to edge).
pub type Numbers = [u32; 49];

/// s, t, and the gradients dsdx, dtdx, dsdy, dtdy.
pub type Coordinates = [f32; 6];

/// Samples of one texture; answers 0, or 8 for a record that is not valid. A texel is a number, red in its lowest byte.
pub fn samples(store: &[u8], numbers: &Numbers, coords: &[Coordinates], out: &mut [u32]) -> u32 {
    assert_eq!(coords.len(), out.len());
    let coords = coords.as_flattened();
    unsafe {
        probe_samples(store.as_ptr(), store.len(), numbers.as_ptr(), numbers.len(), coords.as_ptr(), coords.len(), out.as_mut_ptr(), out.len())
    }
}

/// A record's layout (docs/INTERFACE.md) from its numbers.
pub fn layout(numbers: &Numbers) -> Vec<u8> {
    let mut bytes = Vec::new();
    for level in numbers[..44].chunks(4) {
        for n in [level[0], level[2], level[3]] {
            bytes.extend(n.to_le_bytes());
        }
        bytes.extend(u64::from(level[1]).to_le_bytes());
    }
    bytes.extend(u64::from(numbers[44]).to_le_bytes());
    let filter = |n: u32| [0x2600, 0x2601, 0x2700, 0x2701, 0x2702, 0x2703u32][n as usize];
    let wrap = |n: u32| [0x2901, 0x812Fu32][n as usize];
    for code in [filter(numbers[45]), filter(numbers[46]), wrap(numbers[47]), wrap(numbers[48])] {
        bytes.extend(code.to_le_bytes());
    }
    bytes
}

/// One sample over a record's layout: the answer, and the texel as a number, which a refused call leaves as it was.
pub fn sample(layout: &[u8], store: &[u8], [s, t, dsdx, dtdx, dsdy, dtdy]: Coordinates, texel: &mut u32) -> u32 {
    unsafe { tf_sample(layout.as_ptr(), layout.len(), store.as_ptr(), store.len(), s, t, dsdx, dtdx, dsdy, dtdy, texel) }
}
