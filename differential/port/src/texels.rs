//! crates/tilefringe/src/decode.rt
use crate::raw::{tf_bytes_per_texel, tf_compressed_image_size, tf_decode_compressed_to_rgba, tf_decode_to_rgba};

/// 0 where the pair of codes is unknown.
pub fn bytes_per_texel(format: u32, ty: u32) -> usize {
    tf_bytes_per_texel(format, ty)
}

/// The number that the call answers, 0 where it was done.
pub fn decode_to_rgba(s: &[u8], width: u32, height: u32, format: u32, ty: u32, out: &mut [u8]) -> u32 {
    unsafe { tf_decode_to_rgba(s.as_ptr(), s.len(), width, height, format, ty, out.as_mut_ptr(), out.len()) }
}

pub fn decode_compressed_to_rgba(s: &[u8], width: u32, height: u32, format: u32, out: &mut [u8]) -> u32 {
    unsafe { tf_decode_compressed_to_rgba(s.as_ptr(), s.len(), width, height, format, out.as_mut_ptr(), out.len()) }
}

/// The number that the query answers, and what it leaves in `size`.
pub fn compressed_image_size(format: u32, width: u32, height: u32, mut size: usize) -> (u32, usize) {
    let number = unsafe { tf_compressed_image_size(format, width, height, &mut size) };
    (number, size)
}
