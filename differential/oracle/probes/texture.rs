
/// The private functions and fields of texture.rs, for comparisons.
pub mod probe {
    use super::*;

    #[inline]
    pub fn expand4(v: u16) -> u8 {
        super::expand4(v)
    }

    #[inline]
    pub fn expand5(v: u16) -> u8 {
        super::expand5(v)
    }

    #[inline]
    pub fn expand6(v: u16) -> u8 {
        super::expand6(v)
    }

    pub fn block_counts(width: u32, height: u32) -> (usize, usize) {
        super::block_counts(width, height)
    }

    pub fn dxt1_rgb_block(src: &[u8]) -> ([[u8; 3]; 16], [u8; 16]) {
        super::dxt1_rgb_block(src)
    }

    pub fn atc_rgb_block(src: &[u8]) -> [[u8; 3]; 16] {
        super::atc_rgb_block(src)
    }

    pub fn interpolated_alpha_block(src: &[u8]) -> [u8; 16] {
        super::interpolated_alpha_block(src)
    }

    pub fn decode_paletted(data: &[u8], width: u32, height: u32, format: u32) -> Option<Vec<u8>> {
        super::decode_paletted(data, width, height, format)
    }

    pub fn wrap_from_enum(value: u32) -> Option<Wrap> {
        super::wrap_from_enum(value)
    }

    pub fn wrap_texel(v: i64, size: u32, wrap: Wrap) -> u32 {
        Texture::wrap_texel(v, size, wrap)
    }

    pub fn wrap_coord(v: f32, size: u32, wrap: Wrap) -> u32 {
        Texture::wrap_coord(v, size, wrap)
    }

    pub fn texel_filter(filter: MinFilter) -> Filter {
        filter.texel_filter()
    }

    pub fn mipmap_filter(filter: MinFilter) -> Option<bool> {
        filter.mipmap_filter()
    }

    /// A kept level's sides and bytes, complete or not; level 0 is always kept.
    pub fn kept_level(texture: &Texture, level: u32) -> Option<(u32, u32, &[u8])> {
        if level == 0 {
            return Some((texture.width, texture.height, &texture.rgba));
        }
        let mip = texture.mipmaps.get((level - 1) as usize)?.as_ref()?;
        Some((mip.width, mip.height, &mip.rgba))
    }

    /// A complete level's sides and bytes.
    pub fn image_level(texture: &Texture, level: u32) -> Option<(u32, u32, &[u8])> {
        texture.image_level(level)
    }

    /// The top level as it was last entered.
    pub fn max_mipmap_level(texture: &Texture) -> u32 {
        texture.max_mipmap_level
    }

    pub fn calculate_max_complete_mipmap_level(texture: &Texture) -> u32 {
        texture.calculate_max_complete_mipmap_level()
    }

    pub fn sample_nearest_level(texture: &Texture, level: u32, s: f32, t: f32) -> [u8; 4] {
        texture.sample_nearest_level(level, s, t)
    }

    pub fn sample_linear_level(texture: &Texture, level: u32, s: f32, t: f32) -> [u8; 4] {
        texture.sample_linear_level(level, s, t)
    }

    pub fn sample_filter(texture: &Texture, level: u32, s: f32, t: f32, filter: Filter) -> [u8; 4] {
        texture.sample_filter(level, s, t, filter)
    }
}
