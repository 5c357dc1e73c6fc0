//! crates/tilefringe/src/target.rt
pub use crate::raw::{tf_blend_factor, tf_compare_func};
use crate::raw::{tf_clear_color, tf_clear_depth, tf_to_rgb565};

/// A scissor's x, y, width and height, or the whole target.
pub type Scissor = Option<(i32, i32, i32, i32)>;

/// Answers document 01's number.
pub fn clear_color(colors: &mut [u8], depths_len: usize, width: u32, height: u32, [r, g, b, a]: [u8; 4], scissor: Scissor) -> u32 {
    let (x, y, w, h) = scissor.unwrap_or_default();
    let boxed = u32::from(scissor.is_some());
    unsafe { tf_clear_color(colors.as_mut_ptr(), colors.len(), depths_len, width, height, r, g, b, a, boxed, x, y, w, h) }
}

/// Answers document 01's number.
pub fn clear_depth(depths: &mut [f32], colors_len: usize, width: u32, height: u32, value: f32, scissor: Scissor) -> u32 {
    let (x, y, w, h) = scissor.unwrap_or_default();
    let boxed = u32::from(scissor.is_some());
    unsafe { tf_clear_depth(depths.as_mut_ptr(), depths.len(), colors_len, width, height, value, boxed, x, y, w, h) }
}

/// Answers document 01's number.
pub fn to_rgb565(colors: &[u8], depths_len: usize, width: u32, height: u32, out: &mut [u8]) -> u32 {
    unsafe { tf_to_rgb565(colors.as_ptr(), colors.len(), depths_len, width, height, out.as_mut_ptr(), out.len()) }
}
