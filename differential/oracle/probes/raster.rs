
/// The private functions of raster.rs, for comparisons.
pub mod probe {
    use super::*;

    #[inline]
    pub fn to_unit(v: u8) -> f32 {
        super::to_unit(v)
    }

    #[inline]
    pub fn to_byte(v: f32) -> u8 {
        super::to_byte(v)
    }

    #[inline]
    pub fn resolve(factor: BlendFactor, src: [f32; 4], dst: [f32; 4]) -> [f32; 4] {
        factor.resolve(src, dst)
    }

    #[inline]
    pub fn apply_tex_env(stage: &TextureStage, frag: [f32; 4], tex: [f32; 4]) -> [f32; 4] {
        super::apply_tex_env(stage, frag, tex)
    }

    #[inline]
    pub fn fog_factor(state: &PipelineState, depth: f32) -> f32 {
        super::fog_factor(state, depth)
    }

    /// The box of `width` by `height` that a scissor leaves, rows from the top, ends past the last.
    pub fn scissor_bounds(width: u32, height: u32, scissor: Option<(i32, i32, i32, i32)>) -> Option<(i32, i32, i32, i32)> {
        let target = RenderTarget { width, height, color: Vec::new(), depth: Vec::new() };
        target.scissor_bounds(scissor)
    }

    pub fn clip_distance(vertex: &Vertex, plane: usize) -> f32 {
        super::clip_distance(vertex, plane)
    }

    pub fn inside_frustum(vertex: &Vertex) -> bool {
        super::inside_frustum(vertex)
    }

    pub fn lerp_vertex(a: &Vertex, b: &Vertex, t: f32) -> Vertex {
        super::lerp_vertex(a, b, t)
    }

    /// The polygon that clipping leaves, or `None` where it leaves nothing.
    pub fn clip_frustum(corners: &[Vertex]) -> Option<Vec<Vertex>> {
        let mut polygon = corners.to_vec();
        let mut scratch = Vec::new();
        super::clip_frustum(&mut polygon, &mut scratch).then_some(polygon)
    }

    /// (value, its derivative by x, by y); `q` has the derivatives of 1/w by x and y.
    pub fn perspective_attribute_with_gradients(
        values: [f32; 3],
        weights: [f32; 3],
        reciprocal_q: f32,
        inv_w: [f32; 3],
        barycentric_dx: [f32; 3],
        barycentric_dy: [f32; 3],
        q: [f32; 2],
    ) -> (f32, f32, f32) {
        let derivatives = TriangleDerivatives { inv_w, barycentric_dx, barycentric_dy, dqdx: q[0], dqdy: q[1] };
        super::perspective_attribute_with_gradients(values, weights, reciprocal_q, &derivatives)
    }

    pub fn raster_clipped(
        target: &mut RenderTarget,
        state: &PipelineState,
        sample: SampleFn<'_>,
        stages: &[TextureStage],
        tri: [Vertex; 3],
    ) -> usize {
        super::raster_clipped(target, state, sample, stages, tri)
    }
}
