//! crates/probes/src/probe_clip.rt. A corner is seventeen floats: position, colour, texture coordinates, fog depth.

unsafe extern "C" {
    fn probe_clip_distance(polygon: *const f32, polygon_len: usize, plane: usize) -> f32;
    fn probe_inside_frustum(polygon: *const f32, polygon_len: usize) -> bool;
    fn probe_lerp_vertex(polygon: *mut f32, polygon_len: usize, t: f32);
    fn probe_clip_triangle(polygon: *mut f32, polygon_len: usize) -> usize;
    #[allow(clippy::too_many_arguments)]
    fn probe_setup(
        polygon: *const f32,
        polygon_len: usize,
        view: *const f32,
        view_len: usize,
        near: f32,
        far: f32,
        ccw: bool,
        culled: u32,
        out: *mut f32,
        out_len: usize,
        ends: *mut u32,
        ends_len: usize,
    ) -> bool;
    fn probe_attribute(corners: *const f32, corners_len: usize, reciprocal_q: f32, out: *mut f32, out_len: usize);
}

pub type Corner = [f32; 17];

/// Room for the 42 corners that clipping can leave.
const FLOATS: usize = 42 * 17;

fn polygon(corners: &[Corner]) -> [f32; FLOATS] {
    let mut floats = [0.0; FLOATS];
    for (i, corner) in corners.iter().enumerate() {
        floats[i * 17..i * 17 + 17].copy_from_slice(corner);
    }
    floats
}

fn corner(floats: &[f32; FLOATS], i: usize) -> Corner {
    std::array::from_fn(|k| floats[i * 17 + k])
}

pub fn clip_distance(vertex: &Corner, plane: usize) -> f32 {
    let floats = polygon(&[*vertex]);
    unsafe { probe_clip_distance(floats.as_ptr(), FLOATS, plane) }
}

pub fn inside_frustum(vertex: &Corner) -> bool {
    let floats = polygon(&[*vertex]);
    unsafe { probe_inside_frustum(floats.as_ptr(), FLOATS) }
}

pub fn lerp_vertex(a: &Corner, b: &Corner, t: f32) -> Corner {
    let mut floats = polygon(&[*a, *b]);
    unsafe { probe_lerp_vertex(floats.as_mut_ptr(), FLOATS, t) };
    corner(&floats, 2)
}

/// The corners that clipping leaves: none, or three to 42.
pub fn clip_triangle(triangle: &[Corner; 3]) -> Vec<Corner> {
    let mut floats = polygon(triangle);
    let n = unsafe { probe_clip_triangle(floats.as_mut_ptr(), FLOATS) };
    (0..n).map(|i| corner(&floats, i)).collect()
}

/// A triangle made ready to fill: x, y, z and 1/w of each corner, then 1/area; and x0, y0, x1, y1 of its pixels.
#[derive(Clone, Copy, Debug)]
pub struct Setup {
    pub floats: [f32; 13],
    pub ends: [u32; 4],
}

/// `view`: the viewport's x, y, width and height and the target's height. `cull`: 0 off, 1 front, 2 back, 3 both.
pub fn setup(triangle: &[Corner; 3], view: [f32; 5], range: (f32, f32), ccw: bool, cull: u32, within: [u32; 4]) -> Option<Setup> {
    let floats = polygon(triangle);
    let mut setup = Setup { floats: [0.0; 13], ends: within };
    let draws = unsafe {
        probe_setup(
            floats.as_ptr(),
            FLOATS,
            view.as_ptr(),
            view.len(),
            range.0,
            range.1,
            ccw,
            cull,
            setup.floats.as_mut_ptr(),
            setup.floats.len(),
            setup.ends.as_mut_ptr(),
            setup.ends.len(),
        )
    };
    draws.then_some(setup)
}

/// (value, its slope by x, by y) of an attribute with these values at the corners, at a pixel with these weights.
pub fn attribute(setup: &Setup, values: [f32; 3], weights: [f32; 3], reciprocal_q: f32) -> [f32; 3] {
    let mut out = [values[0], values[1], values[2], weights[0], weights[1], weights[2]];
    unsafe { probe_attribute(setup.floats.as_ptr(), setup.floats.len(), reciprocal_q, out.as_mut_ptr(), out.len()) };
    [out[0], out[1], out[2]]
}
