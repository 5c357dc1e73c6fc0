//! Images decoded into RGBA.
use crate::{ffi, Refusal};

/// A format of plain texels. Any code can be asked for: an unknown one is refused by 14.
#[derive(Clone, Copy, Debug, PartialEq, Eq, Hash)]
pub struct Format(pub u32);

impl Format {
    /// Alpha.
    pub const ALPHA: Format = Format(0x1906);
    /// Red, green, blue.
    pub const RGB: Format = Format(0x1907);
    /// Red, green, blue, alpha.
    pub const RGBA: Format = Format(0x1908);
    /// Luminance.
    pub const LUMINANCE: Format = Format(0x1909);
    /// Luminance and alpha.
    pub const LUMINANCE_ALPHA: Format = Format(0x190A);
}

/// The type of a plain texel.
#[derive(Clone, Copy, Debug, PartialEq, Eq, Hash)]
pub struct TexelType(pub u32);

impl TexelType {
    /// A byte a channel.
    pub const UNSIGNED_BYTE: TexelType = TexelType(0x1401);
    /// Two bytes, four bits a channel.
    pub const UNSIGNED_SHORT_4_4_4_4: TexelType = TexelType(0x8033);
    /// Two bytes, five bits a colour and one of alpha.
    pub const UNSIGNED_SHORT_5_5_5_1: TexelType = TexelType(0x8034);
    /// Two bytes, five, six and five bits.
    pub const UNSIGNED_SHORT_5_6_5: TexelType = TexelType(0x8363);
}

/// A compressed or paletted format. Any code can be asked for: an unknown one is refused by 14.
#[derive(Clone, Copy, Debug, PartialEq, Eq, Hash)]
pub struct CompressedFormat(pub u32);

impl CompressedFormat {
    /// DXT1 without alpha: each texel's is 255.
    pub const RGB_S3TC_DXT1: CompressedFormat = CompressedFormat(0x83F0);
    /// DXT1 with alpha: 0 for the fourth colour of a block whose first endpoint is not above its second, else 255.
    pub const RGBA_S3TC_DXT1: CompressedFormat = CompressedFormat(0x83F1);
    /// DXT3: four bits of alpha a texel, and four colours whatever the endpoints' order.
    pub const RGBA_S3TC_DXT3: CompressedFormat = CompressedFormat(0x83F2);
    /// DXT5: interpolated alpha, and four colours whatever the endpoints' order.
    pub const RGBA_S3TC_DXT5: CompressedFormat = CompressedFormat(0x83F3);
    /// ATC without alpha.
    pub const ATC_RGB: CompressedFormat = CompressedFormat(0x8C92);
    /// ATC with four bits of alpha a texel.
    pub const ATC_RGBA_EXPLICIT_ALPHA: CompressedFormat = CompressedFormat(0x8C93);
    /// ATC with interpolated alpha.
    pub const ATC_RGBA_INTERPOLATED_ALPHA: CompressedFormat = CompressedFormat(0x87EE);
    /// Four-bit indices, entries of three bytes.
    pub const PALETTE4_RGB8: CompressedFormat = CompressedFormat(0x8B90);
    /// Four-bit indices, entries of four bytes.
    pub const PALETTE4_RGBA8: CompressedFormat = CompressedFormat(0x8B91);
    /// Four-bit indices, entries 5, 6, 5.
    pub const PALETTE4_R5_G6_B5: CompressedFormat = CompressedFormat(0x8B92);
    /// Four-bit indices, entries 4, 4, 4, 4.
    pub const PALETTE4_RGBA4: CompressedFormat = CompressedFormat(0x8B93);
    /// Four-bit indices, entries 5, 5, 5, 1.
    pub const PALETTE4_RGB5_A1: CompressedFormat = CompressedFormat(0x8B94);
    /// Eight-bit indices, entries of three bytes.
    pub const PALETTE8_RGB8: CompressedFormat = CompressedFormat(0x8B95);
    /// Eight-bit indices, entries of four bytes.
    pub const PALETTE8_RGBA8: CompressedFormat = CompressedFormat(0x8B96);
    /// Eight-bit indices, entries 5, 6, 5.
    pub const PALETTE8_R5_G6_B5: CompressedFormat = CompressedFormat(0x8B97);
    /// Eight-bit indices, entries 4, 4, 4, 4.
    pub const PALETTE8_RGBA4: CompressedFormat = CompressedFormat(0x8B98);
    /// Eight-bit indices, entries 5, 5, 5, 1.
    pub const PALETTE8_RGB5_A1: CompressedFormat = CompressedFormat(0x8B99);
}

/// The bytes of an RGBA image, or none where a side is refused before the output is looked at.
fn output(width: u32, height: u32) -> Vec<u8> {
    if width > 1_024 || height > 1_024 {
        return Vec::new();
    }
    vec![0; 4 * width as usize * height as usize]
}

/// The bytes of a texel; none for an unknown pair.
///
/// ```
/// use tilefringe::{bytes_per_texel, Format, TexelType};
/// assert_eq!(bytes_per_texel(Format::LUMINANCE_ALPHA, TexelType::UNSIGNED_BYTE), Some(2));
/// assert_eq!(bytes_per_texel(Format(0), TexelType::UNSIGNED_BYTE), None);
/// ```
pub fn bytes_per_texel(format: Format, ty: TexelType) -> Option<usize> {
    match ffi::tf_bytes_per_texel(format.0, ty.0) {
        0 => None,
        bytes => Some(bytes),
    }
}

/// An image of plain texels as RGBA. Refused by 14, 9 or 11.
///
/// ```
/// use tilefringe::{decode_to_rgba, Format, TexelType};
/// let texel = decode_to_rgba(&[0x00, 0xF8], 1, 1, Format::RGB, TexelType::UNSIGNED_SHORT_5_6_5);
/// assert_eq!(texel.unwrap(), [255, 0, 0, 255]);
/// ```
pub fn decode_to_rgba(data: &[u8], width: u32, height: u32, format: Format, ty: TexelType) -> Result<Vec<u8>, Refusal> {
    let mut out = output(width, height);
    decode_to_rgba_into(data, width, height, format, ty, &mut out)?;
    Ok(out)
}

/// The same into memory of the caller's, which must be 4 x width x height bytes: refused by 15 too.
pub fn decode_to_rgba_into(data: &[u8], width: u32, height: u32, format: Format, ty: TexelType, out: &mut [u8]) -> Result<(), Refusal> {
    // SAFETY: each pointer and length are of one slice; the output overlaps no other.
    Refusal::check(unsafe { ffi::tf_decode_to_rgba(data.as_ptr(), data.len(), width, height, format.0, ty.0, out.as_mut_ptr(), out.len()) })
}

/// A compressed or paletted image as RGBA. Refused by 9, 14 or 11; a zero side is an empty image, for any code.
///
/// ```
/// use tilefringe::{decode_compressed_to_rgba, CompressedFormat};
/// let block = [0x00, 0xF8, 0x1F, 0x00, 0xAA, 0xAA, 0xAA, 0xAA];
/// let image = decode_compressed_to_rgba(&block, 4, 4, CompressedFormat::RGB_S3TC_DXT1).unwrap();
/// assert_eq!(image, [170, 0, 85, 255].repeat(16));
///
/// // Black, with a first endpoint that is not above the second: opaque, but for the code that has alpha.
/// let block = [0x1F, 0x00, 0x00, 0xF8, 0xFF, 0xFF, 0xFF, 0xFF];
/// let image = decode_compressed_to_rgba(&block, 4, 4, CompressedFormat::RGB_S3TC_DXT1).unwrap();
/// assert_eq!(image, [0, 0, 0, 255].repeat(16));
/// let image = decode_compressed_to_rgba(&block, 4, 4, CompressedFormat::RGBA_S3TC_DXT1).unwrap();
/// assert_eq!(image, [0; 64]);
///
/// // The same eight bytes after eight of alphas: DXT3 and DXT5 always have four colours.
/// let dxt3 = [[0x77; 8], block].concat();
/// let image = decode_compressed_to_rgba(&dxt3, 4, 4, CompressedFormat::RGBA_S3TC_DXT3).unwrap();
/// assert_eq!(image, [170, 0, 85, 119].repeat(16));
/// let dxt5 = [[0xFF, 0x00, 0x92, 0x24, 0x49, 0x92, 0x24, 0x49], block].concat();
/// let image = decode_compressed_to_rgba(&dxt5, 4, 4, CompressedFormat::RGBA_S3TC_DXT5).unwrap();
/// assert_eq!(image, [170, 0, 85, 218].repeat(16));
/// ```
pub fn decode_compressed_to_rgba(data: &[u8], width: u32, height: u32, format: CompressedFormat) -> Result<Vec<u8>, Refusal> {
    let mut out = output(width, height);
    decode_compressed_to_rgba_into(data, width, height, format, &mut out)?;
    Ok(out)
}

/// The same into memory of the caller's, which must be 4 x width x height bytes: refused by 15 too.
pub fn decode_compressed_to_rgba_into(
    data: &[u8],
    width: u32,
    height: u32,
    format: CompressedFormat,
    out: &mut [u8],
) -> Result<(), Refusal> {
    // SAFETY: as above.
    Refusal::check(unsafe {
        ffi::tf_decode_compressed_to_rgba(data.as_ptr(), data.len(), width, height, format.0, out.as_mut_ptr(), out.len())
    })
}

/// The bytes that a compressed image takes. Refused by 9 or 14.
///
/// ```
/// use tilefringe::{compressed_image_size, CompressedFormat, Refusal};
/// assert_eq!(compressed_image_size(CompressedFormat::PALETTE4_RGB8, 3, 2), Ok(52));
/// assert_eq!(compressed_image_size(CompressedFormat::RGB_S3TC_DXT1, 5, 4), Ok(16));
/// assert_eq!(compressed_image_size(CompressedFormat::RGBA_S3TC_DXT5, 5, 4), Ok(32));
/// assert_eq!(compressed_image_size(CompressedFormat(0), 5, 4), Err(Refusal::Format));
/// ```
pub fn compressed_image_size(format: CompressedFormat, width: u32, height: u32) -> Result<usize, Refusal> {
    let mut size = 0;
    // SAFETY: the size is a place of its own.
    Refusal::check(unsafe { ffi::tf_compressed_image_size(format.0, width, height, &mut size) })?;
    Ok(size)
}
