//! crates/probes/src/probe_floats.rt

unsafe extern "C" {
    pub safe fn probe_min(a: f32, b: f32) -> f32;
    pub safe fn probe_max(a: f32, b: f32) -> f32;
    pub safe fn probe_clamp(x: f32, lo: f32, hi: f32) -> f32;
    pub safe fn probe_abs(x: f32) -> f32;
    pub safe fn probe_is_nan(x: f32) -> bool;
    pub safe fn probe_is_finite(x: f32) -> bool;
    pub safe fn probe_is_bounded(x: f32) -> bool;
    pub safe fn probe_from_bits(n: u32) -> f32;
    pub safe fn probe_saturating_u8(x: f32) -> u8;
    pub safe fn probe_saturating_u32(x: f32) -> u32;
    pub safe fn probe_floor(x: f32) -> f32;
    pub safe fn probe_ceil(x: f32) -> f32;
    pub safe fn probe_round(x: f32) -> f32;
    safe fn probe_saturating_i32(x: f32, n: &mut u64) -> bool;
    safe fn probe_saturating_i64(x: f32, n: &mut u64) -> bool;
    safe fn probe_next_i32(below: bool, m: u64, n: &mut u64) -> bool;
    safe fn probe_next_i64(below: bool, m: u64, n: &mut u64) -> bool;
    fn probe_floors(src: *const f32, src_len: usize, out: *mut f32, out_len: usize);
    pub safe fn probe_to_unit(v: u8) -> f32;
    pub safe fn probe_to_byte(v: f32) -> u8;
    pub safe fn probe_rounded_byte(x: f32) -> u8;
    fn probe_to_bytes(src: *const f32, src_len: usize, out: *mut u8, out_len: usize);
}

/// The byte of each float: both slices have one length.
pub fn to_bytes(src: &[f32], out: &mut [u8]) {
    assert_eq!(src.len(), out.len());
    unsafe { probe_to_bytes(src.as_ptr(), src.len(), out.as_mut_ptr(), out.len()) }
}

/// The floor of each float: both slices have one length.
pub fn floors(src: &[f32], out: &mut [f32]) {
    assert_eq!(src.len(), out.len());
    unsafe { probe_floors(src.as_ptr(), src.len(), out.as_mut_ptr(), out.len()) }
}

/// A signed number of the port: n, or -1 - n where `below`.
#[derive(Clone, Copy, Debug, PartialEq, Eq)]
pub struct Whole {
    pub below: bool,
    pub n: u64,
}

fn whole(call: impl FnOnce(&mut u64) -> bool) -> Whole {
    let mut n = 0;
    let below = call(&mut n);
    Whole { below, n }
}

pub fn saturating_i32(x: f32) -> Whole {
    whole(|n| probe_saturating_i32(x, n))
}

pub fn saturating_i64(x: f32) -> Whole {
    whole(|n| probe_saturating_i64(x, n))
}

pub fn next_i32(w: Whole) -> Whole {
    whole(|n| probe_next_i32(w.below, w.n, n))
}

pub fn next_i64(w: Whole) -> Whole {
    whole(|n| probe_next_i64(w.below, w.n, n))
}
