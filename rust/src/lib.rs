//! A proved triangle renderer for OpenGL ES 1, behind a safe interface.
//!
//! The functions of `include/tilefringe.h` do the work; this crate owns the memory that they are lent and writes their layouts
//! (`docs/INTERFACE.md`). A call answers [`Refusal`] where document 01 refuses it, and then all memory is as it was.
//!
//! The proofs suppose the floating-point environment that a thread has by default: each thread that calls asks [`float_environment`] once.
//!
//! ```
//! use tilefringe::{Rect, Settings, Store, Target, Texture, Vertex};
//!
//! # fn main() -> Result<(), Box<dyn std::error::Error>> {
//! tilefringe::float_environment()?;
//! let mut target = Target::new(2, 2)?;
//! target.clear_depth(1.0, None)?;
//! let settings = Settings { viewport: Rect::new(0, 0, 2, 2), ..Settings::default() };
//! let corners = [[-1.0, -1.0, 0.0, 1.0], [1.0, -1.0, 0.0, 1.0], [-1.0, 1.0, 0.0, 1.0]];
//! let red = Vertex { color: [1.0, 0.0, 0.0, 1.0], ..Vertex::default() };
//! let vertices = corners.map(|position| Vertex { position, ..red });
//!
//! let none = Texture::new();
//! let count = target.draw_triangle(&Store::new(0), [&none; 4], &settings, &[], &vertices)?;
//! assert_eq!(count, 3);
//! assert_eq!(target.pixel(0, 0), Some([255, 0, 0, 255]));
//! assert_eq!(target.depth(0, 0), Some(0.5));
//! # Ok(())
//! # }
//! ```
#![deny(missing_docs)]

mod decode;
mod environment;
mod ffi;
mod refusal;
mod settings;
mod target;
mod texture;
mod vertex;

pub use decode::{
    bytes_per_texel, compressed_image_size, decode_compressed_to_rgba, decode_compressed_to_rgba_into, decode_to_rgba, decode_to_rgba_into,
    CompressedFormat, Format, TexelType,
};
pub use environment::{float_environment, FloatEnvironment};
pub use refusal::Refusal;
pub use settings::{BlendFactor, CompareFunc, Environment, Face, FogMode, FrontFace, Rect, Settings, Stage};
pub use target::Target;
pub use texture::{Filter, Gradients, Level, MinFilter, Store, Texture, Wrap};
pub use vertex::Vertex;

#[cfg(test)]
mod definition_tests;
#[cfg(test)]
mod layout_tests;
