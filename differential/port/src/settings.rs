//! crates/probes/src/probe_settings.rt

unsafe extern "C" {
    pub safe fn probe_test(code: u32, lhs: f32, rhs: f32) -> bool;
    safe fn probe_resolve(code: u32, src: &[f32; 4], dst: &[f32; 4], out: &mut [f32; 4]);
    safe fn probe_blend(src_code: u32, dst_code: u32, src: &[f32; 4], dst: &[f32; 4], out: &mut [f32; 4]);
    safe fn probe_tex_env(env: u32, env_color: &[f32; 4], frag: &[f32; 4], tex: &[f32; 4], out: &mut [f32; 4]);
    pub safe fn probe_fog_factor(start: f32, end: f32, depth: f32) -> f32;
    safe fn probe_fogged(start: f32, end: f32, depth: f32, fog_color: &[f32; 4], frag: &[f32; 4], out: &mut [f32; 4]);
    pub safe fn probe_masked_byte(on: bool, value: f32, stored: u8) -> u8;
}

/// What a probe puts into its last argument.
fn put(call: impl FnOnce(&mut [f32; 4])) -> [f32; 4] {
    let mut out = [f32::NAN; 4];
    call(&mut out);
    out
}

pub fn resolve(code: u32, src: [f32; 4], dst: [f32; 4]) -> [f32; 4] {
    put(|out| probe_resolve(code, &src, &dst, out))
}

pub fn blend(src_code: u32, dst_code: u32, src: [f32; 4], dst: [f32; 4]) -> [f32; 4] {
    put(|out| probe_blend(src_code, dst_code, &src, &dst, out))
}

pub fn tex_env(env: u32, env_color: [f32; 4], frag: [f32; 4], tex: [f32; 4]) -> [f32; 4] {
    put(|out| probe_tex_env(env, &env_color, &frag, &tex, out))
}

pub fn fogged(start: f32, end: f32, depth: f32, fog_color: [f32; 4], frag: [f32; 4]) -> [f32; 4] {
    put(|out| probe_fogged(start, end, depth, &fog_color, &frag, out))
}
