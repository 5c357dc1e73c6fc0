use crate::settings::codes;
use crate::{ffi, Refusal};

/// The texel store: the bytes that the levels of textures lie in. It owns them.
#[derive(Clone, Debug, PartialEq, Eq)]
pub struct Store(Vec<u8>);

impl Store {
    /// A store of so many bytes, all 0.
    pub fn new(len: usize) -> Store {
        Store(vec![0; len])
    }

    /// Its bytes.
    pub fn bytes(&self) -> &[u8] {
        &self.0
    }

    /// The bytes, to be changed.
    pub fn bytes_mut(&mut self) -> &mut [u8] {
        &mut self.0
    }
}

codes! {
    /// The magnifying filter.
    Filter {
        /// The nearest texel.
        Nearest = 0x2600,
        /// A weighted mean of four.
        Linear = 0x2601,
    }
}

codes! {
    /// The minifying filter.
    MinFilter {
        /// The nearest texel of level 0.
        Nearest = 0x2600,
        /// A weighted mean of four texels of level 0.
        Linear = 0x2601,
        /// The nearest texel of the nearest level.
        NearestMipmapNearest = 0x2700,
        /// A mean of four of the nearest level.
        LinearMipmapNearest = 0x2701,
        /// The nearest texels of two levels, weighted.
        NearestMipmapLinear = 0x2702,
        /// Means of four of two levels, weighted.
        LinearMipmapLinear = 0x2703,
    }
}

codes! {
    /// What becomes of a coordinate outside 0 to 1.
    Wrap {
        /// It starts again.
        Repeat = 0x2901,
        /// It stays at the edge.
        ClampToEdge = 0x812F,
    }
}

/// A level that a texture keeps.
#[derive(Clone, Copy, Debug, PartialEq, Eq)]
pub struct Level {
    /// Its width in texels.
    pub width: u32,
    /// Its height.
    pub height: u32,
    /// Its first byte in the store.
    pub place: u64,
}

/// The gradients of a sample's coordinates, along x and along y of the target.
#[derive(Clone, Copy, Debug, Default, PartialEq)]
pub struct Gradients {
    /// Of s along x.
    pub dsdx: f32,
    /// Of t along x.
    pub dtdx: f32,
    /// Of s along y.
    pub dsdy: f32,
    /// Of t along y.
    pub dtdy: f32,
}

/// A texture: its record. Its texels lie in a [`Store`].
///
/// ```
/// use tilefringe::{Filter, Gradients, MinFilter, Refusal, Store, Texture};
/// # fn main() -> Result<(), Refusal> {
/// let mut store = Store::new(16);
/// let mut texture = Texture::new();
/// texture.define_level(&mut store, 0, 2, 1, 8, &[1, 2, 3, 4, 5, 6, 7, 8])?;
/// texture.set_min_filter(MinFilter::Nearest)?;
/// texture.set_mag_filter(Filter::Nearest)?;
/// assert_eq!(texture.sample(&store, 0.75, 0.5, Gradients::default())?, [5, 6, 7, 8]);
/// assert_eq!(texture.define_level(&mut store, 1, 1, 1, 13, &[0; 4]), Err(Refusal::Place));
/// # Ok(())
/// # }
/// ```
#[derive(Clone, Debug, PartialEq, Eq)]
pub struct Texture([u8; Texture::SIZE]);

impl Default for Texture {
    fn default() -> Texture {
        Texture::new()
    }
}

const MAG_FILTER: u32 = 0x2800;
const MIN_FILTER: u32 = 0x2801;
const WRAP_S: u32 = 0x2802;
const WRAP_T: u32 = 0x2803;

/// The parameters that have an effect, by OpenGL's names.
#[cfg(test)]
pub(crate) const PARAMETERS: [(&str, u32); 4] =
    [("TEXTURE_MAG_FILTER", MAG_FILTER), ("TEXTURE_MIN_FILTER", MIN_FILTER), ("TEXTURE_WRAP_S", WRAP_S), ("TEXTURE_WRAP_T", WRAP_T)];

impl Texture {
    /// The bytes of its record's layout.
    pub const SIZE: usize = 244;

    /// The default record: no level, mipmaps as OpenGL sets them out.
    pub fn new() -> Texture {
        let mut record = [0; Texture::SIZE];
        // SAFETY: pointer and length are of one array.
        let answer = unsafe { ffi::tf_new_texture(record.as_mut_ptr(), record.len()) };
        Refusal::check(answer).expect("a record of the layout's length");
        Texture(record)
    }

    /// A texture of a record's layout, as it is: its faults are found by the calls that read it. To an unknown filter or wrap they answer
    /// [`Refusal::Layout`], whatever else is wrong.
    pub fn from_bytes(record: [u8; Texture::SIZE]) -> Texture {
        Texture(record)
    }

    /// Its record's layout.
    pub fn as_bytes(&self) -> &[u8; Texture::SIZE] {
        &self.0
    }

    fn word(&self, at: usize) -> u32 {
        u32::from_le_bytes(self.0[at..at + 4].try_into().unwrap())
    }

    fn long(&self, at: usize) -> u64 {
        u64::from_le_bytes(self.0[at..at + 8].try_into().unwrap())
    }

    /// A level that is kept; level 0 always is, and is 0 by 0 until it is defined.
    pub fn level(&self, k: usize) -> Option<Level> {
        if k > 10 || (k > 0 && self.word(20 * k) == 0) {
            return None;
        }
        Some(Level { width: self.word(20 * k + 4), height: self.word(20 * k + 8), place: self.long(20 * k + 12) })
    }

    /// The last level of the chain from level 0 on.
    pub fn top_level(&self) -> u64 {
        self.long(220)
    }

    /// The minifying filter; none where the record holds an unknown code.
    pub fn min_filter(&self) -> Option<MinFilter> {
        MinFilter::ALL.iter().copied().find(|f| f.code() == self.word(228))
    }

    /// The magnifying filter.
    pub fn mag_filter(&self) -> Option<Filter> {
        Filter::ALL.iter().copied().find(|f| f.code() == self.word(232))
    }

    /// The wrap along s.
    pub fn wrap_s(&self) -> Option<Wrap> {
        Wrap::ALL.iter().copied().find(|w| w.code() == self.word(236))
    }

    /// The wrap along t.
    pub fn wrap_t(&self) -> Option<Wrap> {
        Wrap::ALL.iter().copied().find(|w| w.code() == self.word(240))
    }

    /// Puts an image of RGBA texels at a place in the store, counted in bytes, and enters its level. Refused by 9, 8, 11 or 10.
    pub fn define_level(
        &mut self,
        store: &mut Store,
        level: u32,
        width: u32,
        height: u32,
        place: usize,
        rgba: &[u8],
    ) -> Result<(), Refusal> {
        // SAFETY: each pointer and length are of one slice; those to be changed overlap no other.
        Refusal::check(unsafe {
            ffi::tf_define_level(
                self.0.as_mut_ptr(),
                self.0.len(),
                store.0.as_mut_ptr(),
                store.0.len(),
                level,
                width,
                height,
                place,
                rgba.as_ptr(),
                rgba.len(),
            )
        })
    }

    /// Puts RGBA texels into a rectangle of a level: `rect` is x, y, width, height, rows from the first. Refused by 8, 12, 13 or 11.
    pub fn patch_level(&self, store: &mut Store, level: u32, rect: [u32; 4], patch: &[u8]) -> Result<(), Refusal> {
        let [x, y, width, height] = rect;
        // SAFETY: as above.
        Refusal::check(unsafe {
            ffi::tf_patch_level(
                self.0.as_ptr(),
                self.0.len(),
                store.0.as_mut_ptr(),
                store.0.len(),
                level,
                x,
                y,
                width,
                height,
                patch.as_ptr(),
                patch.len(),
            )
        })
    }

    /// Sets a parameter by OpenGL's codes. Refused by 16.
    pub fn set_parameter(&mut self, pname: u32, value: u32) -> Result<(), Refusal> {
        // SAFETY: pointer and length are of one array.
        Refusal::check(unsafe { ffi::tf_set_parameter(self.0.as_mut_ptr(), self.0.len(), pname, value) })
    }

    /// Sets the minifying filter.
    pub fn set_min_filter(&mut self, filter: MinFilter) -> Result<(), Refusal> {
        self.set_parameter(MIN_FILTER, filter.code())
    }

    /// Sets the magnifying filter.
    pub fn set_mag_filter(&mut self, filter: Filter) -> Result<(), Refusal> {
        self.set_parameter(MAG_FILTER, filter.code())
    }

    /// Sets the wrap along s.
    pub fn set_wrap_s(&mut self, wrap: Wrap) -> Result<(), Refusal> {
        self.set_parameter(WRAP_S, wrap.code())
    }

    /// Sets the wrap along t.
    pub fn set_wrap_t(&mut self, wrap: Wrap) -> Result<(), Refusal> {
        self.set_parameter(WRAP_T, wrap.code())
    }

    /// A sample at s, t: red, green, blue, alpha. White where level 0 is incomplete. Refused by 8.
    pub fn sample(&self, store: &Store, s: f32, t: f32, gradients: Gradients) -> Result<[u8; 4], Refusal> {
        let Gradients { dsdx, dtdx, dsdy, dtdy } = gradients;
        let mut texel = 0;
        // SAFETY: each pointer and length are of one slice; the texel is a place of its own.
        Refusal::check(unsafe {
            ffi::tf_sample(self.0.as_ptr(), self.0.len(), store.0.as_ptr(), store.0.len(), s, t, dsdx, dtdx, dsdy, dtdy, &mut texel)
        })?;
        Ok(texel.to_le_bytes())
    }
}
