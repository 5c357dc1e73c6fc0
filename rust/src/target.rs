use crate::{ffi, Rect, Refusal, Settings, Stage, Store, Texture, Vertex};

/// A render target: colours, four bytes a pixel, and depths, rows from the top. It owns both.
///
/// ```
/// use tilefringe::{Rect, Target};
/// # fn main() -> Result<(), tilefringe::Refusal> {
/// let mut target = Target::new(4, 4)?;
/// // Boxes count from the bottom left: columns 1 and 2 of row 3.
/// target.clear_color([9, 8, 7, 255], Some(Rect::new(1, 0, 2, 1)))?;
/// assert_eq!(target.pixel(1, 3), Some([9, 8, 7, 255]));
/// assert_eq!(target.pixel(1, 2), Some([0, 0, 0, 0]));
/// # Ok(())
/// # }
/// ```
#[derive(Clone, Debug, PartialEq)]
pub struct Target {
    width: u32,
    height: u32,
    colors: Vec<u8>,
    depths: Vec<f32>,
}

impl Target {
    /// The longest side.
    pub const MAX_SIDE: u32 = 4_096;

    /// A target with every colour byte and depth 0: cleared to depth 1, it is ready for the depth test by Less. A side above 4,096 is refused
    /// by 1.
    pub fn new(width: u32, height: u32) -> Result<Target, Refusal> {
        if width > Target::MAX_SIDE || height > Target::MAX_SIDE {
            return Err(Refusal::Target);
        }
        let pixels = width as usize * height as usize;
        Ok(Target { width, height, colors: vec![0; 4 * pixels], depths: vec![0.0; pixels] })
    }

    /// Its width.
    pub fn width(&self) -> u32 {
        self.width
    }

    /// Its height.
    pub fn height(&self) -> u32 {
        self.height
    }

    /// Its colours: red, green, blue, alpha of each pixel, rows from the top.
    pub fn colors(&self) -> &[u8] {
        &self.colors
    }

    /// The colours, to be changed.
    pub fn colors_mut(&mut self) -> &mut [u8] {
        &mut self.colors
    }

    /// Its depths, rows from the top.
    pub fn depths(&self) -> &[f32] {
        &self.depths
    }

    /// The depths, to be changed.
    pub fn depths_mut(&mut self) -> &mut [f32] {
        &mut self.depths
    }

    fn place(&self, x: u32, row: u32) -> Option<usize> {
        (x < self.width && row < self.height).then(|| row as usize * self.width as usize + x as usize)
    }

    /// The colour of column x of a row, counted from the top.
    pub fn pixel(&self, x: u32, row: u32) -> Option<[u8; 4]> {
        let at = 4 * self.place(x, row)?;
        self.colors[at..at + 4].try_into().ok()
    }

    /// The depth of column x of a row, counted from the top.
    pub fn depth(&self, x: u32, row: u32) -> Option<f32> {
        Some(self.depths[self.place(x, row)?])
    }

    /// Sets the colours of the box, or of the whole target. Refused by 2.
    pub fn clear_color(&mut self, [r, g, b, a]: [u8; 4], scissor: Option<Rect>) -> Result<(), Refusal> {
        let Rect { x, y, width, height } = scissor.unwrap_or_default();
        let boxed = u32::from(scissor.is_some());
        // SAFETY: pointer and length are of one slice, lent for the call.
        Refusal::check(unsafe {
            ffi::tf_clear_color(
                self.colors.as_mut_ptr(),
                self.colors.len(),
                self.depths.len(),
                self.width,
                self.height,
                r,
                g,
                b,
                a,
                boxed,
                x,
                y,
                width,
                height,
            )
        })
    }

    /// Sets the depths of the box, or of the whole target. Refused by 2 or 4.
    pub fn clear_depth(&mut self, value: f32, scissor: Option<Rect>) -> Result<(), Refusal> {
        let Rect { x, y, width, height } = scissor.unwrap_or_default();
        let boxed = u32::from(scissor.is_some());
        // SAFETY: as above.
        Refusal::check(unsafe {
            ffi::tf_clear_depth(
                self.depths.as_mut_ptr(),
                self.depths.len(),
                self.colors.len(),
                self.width,
                self.height,
                value,
                boxed,
                x,
                y,
                width,
                height,
            )
        })
    }

    /// The colours as RGB565, two bytes a pixel, low byte first.
    ///
    /// ```
    /// # fn main() -> Result<(), tilefringe::Refusal> {
    /// let mut target = tilefringe::Target::new(1, 1)?;
    /// target.clear_color([255, 0, 0, 255], None)?;
    /// assert_eq!(target.to_rgb565()?, [0x00, 0xF8]);
    /// # Ok(())
    /// # }
    /// ```
    pub fn to_rgb565(&self) -> Result<Vec<u8>, Refusal> {
        let mut out = vec![0; 2 * self.depths.len()];
        self.to_rgb565_into(&mut out)?;
        Ok(out)
    }

    /// The same into memory of the caller's: as many whole pixels as fit, the rest as it was.
    pub fn to_rgb565_into(&self, out: &mut [u8]) -> Result<(), Refusal> {
        // SAFETY: each pointer and length are of one slice; the two do not overlap, since one is lent to be changed.
        Refusal::check(unsafe {
            ffi::tf_to_rgb565(
                self.colors.as_ptr(),
                self.colors.len(),
                self.depths.len(),
                self.width,
                self.height,
                out.as_mut_ptr(),
                out.len(),
            )
        })
    }

    /// Draws a triangle with the textures of the units 0 to 3, and answers the count of pixel writes.
    /// Refused by 2, 3, 4, 7, 6, 8 or 5, in this order; before them by 255 where a texture made of bytes holds an unknown code and a stage
    /// names its unit.
    ///
    /// ```
    /// use tilefringe::{Refusal, Settings, Store, Target, Texture, Vertex};
    /// let mut target = Target::new(8, 8).unwrap();
    /// let (none, wrong) = (Texture::new(), Vertex { fog_depth: f32::NAN, ..Vertex::default() });
    /// let answer = target.draw_triangle(&Store::new(0), [&none; 4], &Settings::default(), &[], &[wrong; 3]);
    /// assert_eq!(answer, Err(Refusal::Vertex));
    /// ```
    pub fn draw_triangle(
        &mut self,
        store: &Store,
        units: [&Texture; 4],
        settings: &Settings,
        stages: &[Stage],
        vertices: &[Vertex; 3],
    ) -> Result<u32, Refusal> {
        let mut records = [0; 4 * Texture::SIZE];
        for (place, texture) in records.chunks_exact_mut(Texture::SIZE).zip(units) {
            place.copy_from_slice(texture.as_bytes());
        }
        let settings = settings.to_bytes();
        let stages: Vec<u8> = stages.iter().flat_map(Stage::to_bytes).collect();
        let mut corners = [0; 3 * Vertex::SIZE];
        for (place, vertex) in corners.chunks_exact_mut(Vertex::SIZE).zip(vertices) {
            place.copy_from_slice(&vertex.to_bytes());
        }
        let store = store.bytes();
        // SAFETY: each pointer and length are of one slice; colours and depths are lent to be changed, so they overlap no other.
        let answer = unsafe {
            ffi::tf_draw_triangle(
                self.colors.as_mut_ptr(),
                self.colors.len(),
                self.depths.as_mut_ptr(),
                self.depths.len(),
                self.width,
                self.height,
                store.as_ptr(),
                store.len(),
                records.as_ptr(),
                records.len(),
                settings.as_ptr(),
                settings.len(),
                stages.as_ptr(),
                stages.len(),
                corners.as_ptr(),
                corners.len(),
            )
        };
        Refusal::check((answer >> 32) as u32)?;
        Ok(answer as u32)
    }
}
