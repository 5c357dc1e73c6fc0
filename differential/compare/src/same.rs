//! When two answers are the same: NaN equals NaN, every other float goes by its bits.

pub fn f32s(a: f32, b: f32) -> bool {
    a.to_bits() == b.to_bits() || (a.is_nan() && b.is_nan())
}

pub fn f64s(a: f64, b: f64) -> bool {
    a.to_bits() == b.to_bits() || (a.is_nan() && b.is_nan())
}

pub fn f32_lists(a: &[f32], b: &[f32]) -> bool {
    a.len() == b.len() && a.iter().zip(b).all(|(&x, &y)| f32s(x, y))
}

/// Where the sign of a zero is free: what comes out of a minimum or maximum of two zeros.
pub fn f32s_but_for_zeros(a: f32, b: f32) -> bool {
    f32s(a, b) || (a == 0.0 && b == 0.0)
}

/// The first place where two lists of bytes differ, in words.
pub fn bytes(what: &str, rust: &[u8], port: &[u8]) -> Option<String> {
    if rust.len() != port.len() {
        return Some(format!("{what}: {} bytes from the Rust, {} from the port", rust.len(), port.len()));
    }
    let at = rust.iter().zip(port).position(|(a, b)| a != b)?;
    Some(format!("{what}: byte {at} is {} from the Rust, {} from the port", rust[at], port[at]))
}

/// The first place where two lists of floats differ, in words.
pub fn floats(what: &str, rust: &[f32], port: &[f32]) -> Option<String> {
    if rust.len() != port.len() {
        return Some(format!("{what}: {} floats from the Rust, {} from the port", rust.len(), port.len()));
    }
    let at = rust.iter().zip(port).position(|(&a, &b)| !f32s(a, b))?;
    Some(format!("{what}: float {at} is {} from the Rust, {} from the port", shown(rust[at]), shown(port[at])))
}

/// A float with its bits.
pub fn shown(x: f32) -> String {
    format!("{x:e} (0x{:08x})", x.to_bits())
}
