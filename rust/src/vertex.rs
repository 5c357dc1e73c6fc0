/// A vertex: seventeen floats, in clip space.
///
/// ```
/// use tilefringe::Vertex;
/// let corner = Vertex { position: [-1.0, -1.0, 0.0, 1.0], ..Vertex::default() };
/// assert_eq!(corner.color, [1.0; 4]);
/// assert_eq!(Vertex::default().position, [0.0, 0.0, 0.0, 1.0]);
/// ```
#[derive(Clone, Copy, Debug, PartialEq)]
pub struct Vertex {
    /// x, y, z, w.
    pub position: [f32; 4],
    /// Red, green, blue, alpha.
    pub color: [f32; 4],
    /// s and t of each of the four units.
    pub texcoords: [[f32; 2]; 4],
    /// The depth that fog goes by.
    pub fog_depth: f32,
}

impl Default for Vertex {
    /// That of the Rust's `Vertex::default`: white, at the origin with w 1; all else 0.
    fn default() -> Vertex {
        Vertex { position: [0.0, 0.0, 0.0, 1.0], color: [1.0; 4], texcoords: [[0.0; 2]; 4], fog_depth: 0.0 }
    }
}

impl Vertex {
    /// The bytes of its layout.
    pub const SIZE: usize = 68;

    /// Its layout: the floats in the order of the fields, little-endian.
    pub fn to_bytes(&self) -> [u8; Vertex::SIZE] {
        let mut bytes = [0; Vertex::SIZE];
        let floats = self.position.iter().chain(&self.color).chain(self.texcoords.as_flattened()).chain([&self.fog_depth]);
        for (place, float) in bytes.chunks_exact_mut(4).zip(floats) {
            place.copy_from_slice(&float.to_bits().to_le_bytes());
        }
        bytes
    }
}
