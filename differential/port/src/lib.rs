//! The port's exported functions behind safe Rust ones: a file for each module of the Rattle crates `probes` and `tilefringe`.
//! A slice is passed as a pointer and a length, a `&mut` number as a pointer. `boundary` and `lent` hand over any pointer that the header allows.
pub mod boundary;
pub mod clip;
pub mod draw;
pub mod floats;
pub mod lent;
#[path = "../../../rust/src/ffi.rs"]
mod raw;
pub mod settings;
pub mod target;
pub mod sampler;
pub mod texels;
pub mod texture;
