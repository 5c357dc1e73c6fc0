//! include/tilefringe.h, function by function in its order.

unsafe extern "C" {
    pub safe fn tf_bytes_per_texel(format: u32, ty: u32) -> usize;
    pub fn tf_decode_to_rgba(
        data: *const u8,
        data_len: usize,
        width: u32,
        height: u32,
        format: u32,
        ty: u32,
        out: *mut u8,
        out_len: usize,
    ) -> u32;
    pub fn tf_decode_compressed_to_rgba(
        data: *const u8,
        data_len: usize,
        width: u32,
        height: u32,
        format: u32,
        out: *mut u8,
        out_len: usize,
    ) -> u32;
    pub fn tf_compressed_image_size(format: u32, width: u32, height: u32, size: *mut usize) -> u32;
    pub fn tf_sample(
        record: *const u8,
        record_len: usize,
        store: *const u8,
        store_len: usize,
        s: f32,
        t: f32,
        dsdx: f32,
        dtdx: f32,
        dsdy: f32,
        dtdy: f32,
        texel: *mut u32,
    ) -> u32;
    pub fn tf_clear_color(
        colors: *mut u8,
        colors_len: usize,
        depths_len: usize,
        width: u32,
        height: u32,
        r: u8,
        g: u8,
        b: u8,
        a: u8,
        boxed: u32,
        box_x: i32,
        box_y: i32,
        box_width: i32,
        box_height: i32,
    ) -> u32;
    pub fn tf_clear_depth(
        depths: *mut f32,
        depths_len: usize,
        colors_len: usize,
        width: u32,
        height: u32,
        value: f32,
        boxed: u32,
        box_x: i32,
        box_y: i32,
        box_width: i32,
        box_height: i32,
    ) -> u32;
    pub fn tf_to_rgb565(
        colors: *const u8,
        colors_len: usize,
        depths_len: usize,
        width: u32,
        height: u32,
        out: *mut u8,
        out_len: usize,
    ) -> u32;
    pub safe fn tf_compare_func(code: u32) -> u32;
    pub safe fn tf_blend_factor(code: u32) -> u32;
    pub fn tf_new_texture(record: *mut u8, record_len: usize) -> u32;
    pub fn tf_define_level(
        record: *mut u8,
        record_len: usize,
        store: *mut u8,
        store_len: usize,
        level: u32,
        width: u32,
        height: u32,
        place: usize,
        rgba: *const u8,
        rgba_len: usize,
    ) -> u32;
    pub fn tf_patch_level(
        record: *const u8,
        record_len: usize,
        store: *mut u8,
        store_len: usize,
        level: u32,
        xoffset: u32,
        yoffset: u32,
        width: u32,
        height: u32,
        patch: *const u8,
        patch_len: usize,
    ) -> u32;
    pub fn tf_set_parameter(record: *mut u8, record_len: usize, pname: u32, value: u32) -> u32;
    pub fn tf_draw_triangle(
        colors: *mut u8,
        colors_len: usize,
        depths: *mut f32,
        depths_len: usize,
        width: u32,
        height: u32,
        store: *const u8,
        store_len: usize,
        units: *const u8,
        units_len: usize,
        settings: *const u8,
        settings_len: usize,
        stages: *const u8,
        stages_len: usize,
        vertices: *const u8,
        vertices_len: usize,
    ) -> u64;
}
