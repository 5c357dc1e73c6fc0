//! Floats worth trying: every exponent, ends of ranges, halves, subnormals, infinities, NaN, neighbours of thresholds.
use crate::random::Rng;

/// The next float of larger and of smaller magnitude, and x itself.
pub fn neighbours(x: f32) -> [f32; 3] {
    let bits = x.to_bits();
    [f32::from_bits(bits.saturating_sub(1)), x, f32::from_bits(bits.saturating_add(1))]
}

/// Ends of the ranges that the renderer's floats are cut to, and its thresholds.
pub const THRESHOLDS: [f32; 46] = [
    0.0, 1e-9, 1e-8, 1e-6, 1.0 / 510.0, 1.0 / 255.0, 0.25, 0.5, 0.75, 1.0, 1.5, 2.0, 2.5, 3.0, 4.0, 127.0, 127.5, 128.0, 254.0,
    254.5, 255.0, 255.5, 256.0, 1023.0, 1024.0, 4095.0, 4096.0, 4096.5, 8191.0, 8192.0, 65535.0, 65536.0, 1048575.0, 1048576.0,
    4194303.5, 4194304.0, 8388607.5, 8388608.0, 12582912.0, 16777215.0, 16777216.0, 2147483648.0, 4294967296.0,
    9223372036854775808.0, 18446744073709551616.0, f32::MAX,
];

/// Thresholds, their neighbours and halves, of either sign; subnormals, infinities and NaNs of every kind.
pub fn specials() -> Vec<f32> {
    let mut list = Vec::new();
    for t in THRESHOLDS {
        list.extend(neighbours(t));
        list.extend(neighbours(t + 0.5));
    }
    for bits in [1, 2, 3, 0x0040_0000, 0x007f_ffff, 0x0080_0000, 0x0080_0001, 0x7f80_0000] {
        list.push(f32::from_bits(bits));
    }
    for bits in [0x7f80_0001, 0x7fbf_ffff, 0x7fc0_0000, 0x7fc0_0001, 0x7fff_ffff] {
        list.push(f32::from_bits(bits));
    }
    let negated: Vec<f32> = list.iter().map(|x| f32::from_bits(x.to_bits() ^ 0x8000_0000)).collect();
    list.extend(negated);
    list.sort_by_key(|x| x.to_bits());
    list.dedup_by_key(|x| x.to_bits());
    list
}

/// Any bit pattern.
pub fn any(rng: &mut Rng) -> f32 {
    f32::from_bits(rng.u32())
}

/// A finite float, every exponent as likely as every other.
pub fn finite(rng: &mut Rng) -> f32 {
    let bits = rng.u32();
    f32::from_bits(if bits & 0x7f80_0000 == 0x7f80_0000 { bits & !0x4000_0000 } else { bits })
}

/// A float that the rule of 4 lets pass: finite, at most 1,048,576 in magnitude.
pub fn bounded(rng: &mut Rng) -> f32 {
    loop {
        let x = finite(rng);
        if x.abs() <= 1048576.0 {
            return x;
        }
    }
}

/// A float of one of several kinds: special, small and whole, half, between 0 and 1, any pattern.
pub fn mixed(rng: &mut Rng, specials: &[f32]) -> f32 {
    match rng.below(8) {
        0 | 1 => rng.pick(specials),
        2 => rng.between(-300, 300) as f32,
        3 => rng.between(-600, 600) as f32 / 2.0,
        4 => rng.unit(),
        5 => rng.float(-2.0, 2.0),
        _ => any(rng),
    }
}

/// Classes of floats, for counters.
pub fn class(x: f32) -> &'static str {
    match x.classify() {
        std::num::FpCategory::Nan => "NaN",
        std::num::FpCategory::Infinite => "infinite",
        std::num::FpCategory::Zero => "zero",
        std::num::FpCategory::Subnormal => "subnormal",
        std::num::FpCategory::Normal => "normal",
    }
}
