//! raster.rs, texture.rs and consts.rs of PocketHLE, built from a copy that the build script makes.
//! Each module has a `probe` that reaches its private functions. Three crates are built from this file:
//! `oracle` (as released), `oracle_checked` (overflow panics) and `oracle_saturating` (01's added saturations).
#![allow(dead_code, private_interfaces, clippy::all)]

include!(concat!(env!("OUT_DIR"), "/mods.rs"));
