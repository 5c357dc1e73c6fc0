//! Two pictures, and the art tool that writes them as DXT1, DXT3 and DXT5.

/// The sides of the tank's picture.
pub const TANK: [u32; 2] = [40, 64];

/// A tank with a manhole and a sight glass, filled by so many rows; none where it is black.
fn texel(level: i32, x: i32, y: i32) -> Option<[u8; 3]> {
    const WALL: Option<[u8; 3]> = Some([206, 212, 218]);
    // Half texels from its axis, and half its width there: a dome, the body, a cone.
    let across = 2 * x - 39;
    let wide = match y {
        ..=2 => 0,
        3..=11 => [9, 15, 19, 21, 23, 25, 25, 27, 27][y as usize - 3],
        12..=50 => 27,
        _ => 27 - 3 * (y - 50),
    };
    if across.abs() > wide {
        let leg = y > 50 && (25..=27).contains(&across.abs());
        return if leg { None } else { WALL };
    }
    let outline = across.abs() > wide - if y > 50 { 4 } else { 2 };
    let manhole = (across + 7).pow(2) + 4 * (y - 26).pow(2) < 84;
    if outline || manhole || y == 3 || y == 14 || y == 50 {
        return None;
    }
    if (11..=21).contains(&across) && (18..=45).contains(&y) {
        let frame = across == 11 || across == 21 || y == 18 || y == 45;
        let filled = y >= 45 - level;
        return if frame { None } else { Some(if filled { [64, 132, 214] } else { [236, 240, 244] }) };
    }
    let shade = (196 - (across + 9).pow(2) / 10) as u8;
    Some([shade, shade + 6, shade + 12])
}

/// The tank as DXT1. Endpoints never fall, so that a block's fourth colour is black.
pub fn tank(level: i32) -> Vec<u8> {
    blocks(TANK, |x, y| texel(level, x, y)).flat_map(|texels| colors(&texels, &[[1, 0], [0, 1], [1, 1]])).collect()
}

/// The sides of the flare's picture.
pub const FLARE: [u32; 2] = [40, 64];

/// A flame that leans and goes over into smoke: eight rounds, each softer, wider and colder than the one below. Its colour and its alpha.
fn burning(lean: i32, x: i32, y: i32) -> ([u8; 3], u8) {
    let (mut alpha, mut heat) = (0, 0);
    for i in 0..8 {
        // In half texels.
        let (across, up, radius) = (2 * x - 39 - lean * i * i / 6, 2 * y - 112 + 12 * i, 11 + 2 * i);
        let near = (radius * radius - across * across - up * up).max(0) * 255 / (radius * radius);
        alpha += (255 - alpha) * near * (13 - i) / (13 * 255);
        heat += near * (7 - i) / 7;
    }
    let heat = heat.min(255);
    (
        [90 + 165 * heat / 255, 84 + 140 * heat * heat / 65_025, 88 + 30 * heat * heat / 65_025 - 60 * heat / 255].map(|c| c as u8),
        alpha as u8,
    )
}

/// The flare as DXT3. Endpoints never fall here either, and a block has four colours nevertheless.
pub fn flare_dxt3(lean: i32) -> Vec<u8> {
    flare(lean, |alphas| std::array::from_fn(|i| (alphas[2 * i] + 8) / 17 | (alphas[2 * i + 1] + 8) / 17 << 4))
}

/// The flare as DXT5.
pub fn flare_dxt5(lean: i32) -> Vec<u8> {
    flare(lean, |alphas| {
        // The greatest first, so that there are six between them.
        let (a0, a1) = alphas.iter().fold((0, 255), |(a0, a1), &alpha| (alpha.max(a0), alpha.min(a1)));
        let between = |k: i32| if k < 2 { [a0, a1][k as usize] } else { ((8 - k) * a0 + (k - 1) * a1) / 7 };
        let nearest = |alpha: i32| (0..8).min_by_key(|&k| (between(k) - alpha).abs()).unwrap_or(0);
        let bits = alphas.iter().rev().fold(0u64, |bits, &alpha| bits << 3 | nearest(alpha) as u64);
        let [c, d, e, f, g, h, ..] = bits.to_le_bytes();
        [a0, a1, c.into(), d.into(), e.into(), f.into(), g.into(), h.into()]
    })
}

/// The flare's blocks: eight bytes of its sixteen alphas, then its colours.
fn flare(lean: i32, eight: impl Fn([i32; 16]) -> [i32; 8]) -> Vec<u8> {
    let block = |texels: [([u8; 3], u8); 16]| {
        let alphas = eight(texels.map(|(_, alpha)| i32::from(alpha))).map(|byte| byte as u8);
        [alphas, colors(&texels.map(|(rgb, _)| Some(rgb)), &[[1, 0], [0, 1], [2, 1], [1, 2]])].concat()
    };
    blocks(FLARE, |x, y| burning(lean, x, y)).flat_map(block).collect()
}

/// A picture's blocks of four by four texels.
fn blocks<T>(sides: [u32; 2], texel: impl Fn(i32, i32) -> T) -> impl Iterator<Item = [T; 16]> {
    let [width, height] = sides.map(|side| side as i32 / 4);
    (0..width * height).map(move |n| std::array::from_fn(|i| texel(4 * (n % width) + i as i32 % 4, 4 * (n / width) + i as i32 / 4)))
}

/// The least and the greatest of the texels' 5-6-5 codes as endpoints, then for each texel the nearest of the mixtures, 3 where it is black.
fn colors(texels: &[Option<[u8; 3]>; 16], mixtures: &[[i32; 2]]) -> [u8; 8] {
    let code = |[r, g, b]: [u8; 3]| u16::from(r / 8) << 11 | u16::from(g / 4) << 5 | u16::from(b / 8);
    let codes = || texels.iter().flatten().map(|&rgb| code(rgb));
    let (c0, c1) = (codes().min().unwrap_or(0), codes().max().unwrap_or(0));
    let [e0, e1] = [c0, c1].map(|c| [c >> 11 << 3, c >> 5 << 2 & 252, c << 3 & 248].map(i32::from));
    let far = |[a, b]: [i32; 2], rgb: [u8; 3]| (0..3).map(|i| ((a * e0[i] + b * e1[i]) / (a + b) - i32::from(rgb[i])).pow(2)).sum::<i32>();
    let nearest = |rgb| (0..mixtures.len()).min_by_key(|&k| far(mixtures[k], rgb)).unwrap_or(0) as u32;
    let bits = texels.iter().rev().fold(0u32, |bits, texel| bits << 2 | texel.map_or(3, nearest));
    let ([a, b], [c, d], [e, f, g, h]) = (c0.to_le_bytes(), c1.to_le_bytes(), bits.to_le_bytes());
    [a, b, c, d, e, f, g, h]
}
