//! crates/tilefringe/src/texture_calls.rt
use crate::raw::{tf_define_level, tf_new_texture, tf_patch_level, tf_set_parameter};

/// The bytes of a record's layout.
pub const RECORD: usize = 244;

pub fn new_texture(record: &mut [u8]) -> u32 {
    unsafe { tf_new_texture(record.as_mut_ptr(), record.len()) }
}

pub fn define_level(record: &mut [u8], store: &mut [u8], level: u32, width: u32, height: u32, place: usize, rgba: &[u8]) -> u32 {
    unsafe {
        tf_define_level(record.as_mut_ptr(), record.len(), store.as_mut_ptr(), store.len(), level, width, height, place, rgba.as_ptr(), rgba.len())
    }
}

/// `rect` is x, y, width, height.
pub fn patch_level(record: &[u8], store: &mut [u8], level: u32, rect: [u32; 4], patch: &[u8]) -> u32 {
    let [x, y, width, height] = rect;
    unsafe {
        tf_patch_level(record.as_ptr(), record.len(), store.as_mut_ptr(), store.len(), level, x, y, width, height, patch.as_ptr(), patch.len())
    }
}

pub fn set_parameter(record: &mut [u8], pname: u32, value: u32) -> u32 {
    unsafe { tf_set_parameter(record.as_mut_ptr(), record.len(), pname, value) }
}
