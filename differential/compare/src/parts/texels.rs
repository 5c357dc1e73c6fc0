//! Texel formats: plain, compressed and paletted decoding and the size query. The numbers of refused calls are document 01's.
use crate::{same, shrink, Ctx, Part, Record, Rng, Tally};
use oracle::texture as rust;
use port::texels as port;
use std::cmp::Ordering;

pub const PART: Part = Part {
    name: "texels",
    cases: 1_000_000,
    run,
    record: Some(record),
};

pub(super) const FORMATS: [u32; 5] = [0x1906, 0x1907, 0x1908, 0x1909, 0x190A];
pub(super) const PACKED: [u32; 3] = [0x8363, 0x8033, 0x8034];
const BYTE: u32 = 0x1401;
const DXT1: [u32; 2] = [0x83F0, 0x83F1];
/// DXT3 and DXT5 (2026-14), which always have four colours, and which the Rust refuses.
const FOUR: [u32; 2] = [0x83F2, 0x83F3];
const ATC: [u32; 3] = [0x8C92, 0x8C93, 0x87EE];
pub(super) const BLOCKS: [u32; 7] = [0x83F0, 0x83F1, 0x83F2, 0x83F3, 0x8C92, 0x8C93, 0x87EE];
pub(super) const PALETTES: [u32; 10] = [0x8B90, 0x8B91, 0x8B92, 0x8B93, 0x8B94, 0x8B95, 0x8B96, 0x8B97, 0x8B98, 0x8B99];
/// Codes that are none of the above, or not in that place.
const STRANGE: [u32; 12] = [0, 1, 0x1400, 0x1905, 0x190B, 0x83EF, 0x83F4, 0x8B8F, 0x8B9A, 0x8C91, 0xDEAD, u32::MAX];

#[derive(Clone, Copy, Debug, PartialEq, Eq)]
enum Op {
    Plain,
    Compressed,
    Size,
}

const OPS: [(Op, &str); 3] = [(Op::Plain, "plain"), (Op::Compressed, "compressed"), (Op::Size, "size")];

#[derive(Clone, Debug)]
struct Call {
    op: Op,
    width: u32,
    height: u32,
    format: u32,
    ty: u32,
    data: Vec<u8>,
    /// The length of the output.
    out: usize,
}

/// What a call answers and leaves.
#[derive(Clone, Debug, PartialEq, Eq)]
struct Left {
    number: u32,
    size: usize,
    out: Vec<u8>,
}

/// What stands in the output before a call.
fn before(n: usize) -> Vec<u8> {
    (0..n).map(|i| (i * 37 + 11) as u8).collect()
}

/// What stands in the size before a query.
const SIZE_BEFORE: usize = 77;

/// 2026-02: an image of 83F0 is the Rust's with each alpha 255.
fn made_opaque(mut image: Vec<u8>) -> Vec<u8> {
    image.iter_mut().skip(3).step_by(4).for_each(|alpha| *alpha = 255);
    image
}

/// The code under which the Rust has a format's size and alphas: for DXT3 and DXT5 that of ATC's with the same alphas.
fn beside(format: u32) -> u32 {
    FOUR.iter().position(|&four| four == format).map_or(format, |i| ATC[i + 1])
}

fn size_of(format: u32, width: u32, height: u32) -> Option<usize> {
    rust::compressed_image_size(beside(format), width, height)
}

/// The order of a colour block's endpoints.
fn endpoints(block: [u8; 8]) -> Ordering {
    u16::from_le_bytes([block[0], block[1]]).cmp(&u16::from_le_bytes([block[2], block[3]]))
}

/// 2026-14: the DXT1 block that has, as the Rust reads it, the texels of a colour block with four colours, whatever its endpoints' order.
fn as_dxt1(block: [u8; 8]) -> [u8; 8] {
    let [a, b, c, d, e, f, g, h] = block;
    match endpoints(block) {
        Ordering::Greater => block,
        // The endpoints exchanged, so that selectors 0, 1, 2 and 3 become 1, 0, 3 and 2.
        Ordering::Less => [c, d, a, b, e ^ 0x55, f ^ 0x55, g ^ 0x55, h ^ 0x55],
        // All four colours are the endpoints': each texel has the first, none black.
        Ordering::Equal => [a, b, c, d, 0, 0, 0, 0],
    }
}

/// The colour blocks of an image of DXT3 or DXT5.
fn colour_blocks(data: &[u8]) -> impl Iterator<Item = [u8; 8]> + '_ {
    data.chunks_exact(16).map(|block| block[8..].try_into().expect("eight bytes"))
}

/// The image that is wanted, by the Rust's decode: 83F0's with each alpha 255; of DXT3 and DXT5 the colours as DXT1, the alphas as ATC.
fn image_of(data: &[u8], width: u32, height: u32, format: u32) -> Option<Vec<u8>> {
    let image = rust::decode_compressed_to_rgba(data, width, height, beside(format))?;
    if format == DXT1[0] {
        return Some(made_opaque(image));
    }
    if !FOUR.contains(&format) {
        return Some(image);
    }
    let dxt1: Vec<u8> = colour_blocks(data).flat_map(as_dxt1).collect();
    let colours = rust::decode_compressed_to_rgba(&dxt1, width, height, DXT1[1]).expect("as many blocks");
    let texels = colours.chunks(4).zip(image.chunks(4));
    Some(texels.flat_map(|(colour, alpha)| [colour[0], colour[1], colour[2], alpha[3]]).collect())
}

/// Document 01's answer, with the Rust's bytes as `image_of` has them. Where there are none, it must be 14 or 11.
fn wanted(call: &Call) -> Left {
    let Call { op, width, height, format, ty, ref data, out } = *call;
    let large = width > 1024 || height > 1024;
    let empty = width == 0 || height == 0;
    let needed = 4 * width as usize * height as usize;
    let refused = |number| Left { number, size: SIZE_BEFORE, out: before(out) };
    let done = |image| Left { number: 0, size: SIZE_BEFORE, out: image };
    match op {
        Op::Plain => {
            let Some(bytes) = rust::bytes_per_texel(format, ty) else { return refused(14) };
            if large {
                return refused(9);
            }
            let image = rust::decode_to_rgba(data, width, height, format, ty);
            assert_eq!(image.is_none(), data.len() < needed / 4 * bytes);
            match image {
                None => refused(11),
                Some(_) if out != needed => refused(15),
                Some(image) => done(image),
            }
        }
        Op::Compressed if large => refused(9),
        Op::Compressed => {
            let size = size_of(format, width, height);
            let image = image_of(data, width, height, format);
            assert_eq!(image.is_none(), !empty && size.is_none_or(|n| data.len() < n));
            match image {
                None if size.is_none() => refused(14),
                None => refused(11),
                Some(_) if out != needed => refused(15),
                Some(image) => done(image),
            }
        }
        Op::Size if large => refused(9),
        Op::Size => match size_of(format, width, height) {
            None => refused(14),
            Some(size) => Left { number: 0, size, out: before(out) },
        },
    }
}

fn answered(call: &Call) -> Left {
    let mut out = before(call.out);
    let Call { width, height, format, ty, ref data, .. } = *call;
    let (number, size) = match call.op {
        Op::Plain => (port::decode_to_rgba(data, width, height, format, ty, &mut out), SIZE_BEFORE),
        Op::Compressed => (port::decode_compressed_to_rgba(data, width, height, format, &mut out), SIZE_BEFORE),
        Op::Size => port::compressed_image_size(format, width, height, SIZE_BEFORE),
    };
    Left { number, size, out }
}

/// The number that was answered, and what differs.
fn check(call: &Call) -> (u32, Option<String>) {
    let (rust, port) = (wanted(call), answered(call));
    let words = if rust.number != port.number {
        Some(format!("{} from the Rust and document 01, {} from the port", rust.number, port.number))
    } else if rust.size != port.size {
        Some(format!("size {} from the Rust, {} from the port", rust.size, port.size))
    } else {
        let what = match call.format {
            0x83F0 => "output, each alpha of the Rust's made 255",
            0x83F2 | 0x83F3 => "output, colours as the Rust's DXT1 of four colours, alphas as its ATC",
            _ => "output",
        };
        same::bytes(what, &rust.out, &port.out)
    };
    (rust.number, words)
}

fn smaller(call: &Call) -> Vec<Call> {
    let mut list = Vec::new();
    for n in shrink::number(i64::from(call.width)).into_iter().filter(|&n| n >= 0) {
        list.push(Call { width: n as u32, ..call.clone() });
    }
    for n in shrink::number(i64::from(call.height)).into_iter().filter(|&n| n >= 0) {
        list.push(Call { height: n as u32, ..call.clone() });
    }
    for n in shrink::number(call.data.len() as i64).into_iter().filter(|&n| n >= 0) {
        list.push(Call { data: call.data[..n as usize].to_vec(), ..call.clone() });
    }
    for n in shrink::number(call.out as i64).into_iter().filter(|&n| n >= 0) {
        list.push(Call { out: n as usize, ..call.clone() });
    }
    for i in (0..call.data.len()).filter(|&i| call.data[i] != 0) {
        let mut data = call.data.clone();
        data[i] = 0;
        list.push(Call { data, ..call.clone() });
    }
    list
}

fn name(op: Op) -> &'static str {
    OPS.iter().find(|(o, _)| *o == op).expect("every operation has a name").1
}

const OPAQUE_BLACK: &str = "texels of 83F0 that the Rust makes transparent, the port opaque";
const TRANSPARENT_BLACK: &str = "texels of 83F1 that both make transparent";

/// Counts the texels that the Rust makes transparent: with 83F0 those that the port has opaque, with 83F1 those that it has transparent too.
fn count_black(tally: &mut Tally, format: u32, rust: &[u8], port: &[u8]) {
    let (name, alpha) = if format == DXT1[0] { (OPAQUE_BLACK, 255) } else { (TRANSPARENT_BLACK, 0) };
    let black = rust.chunks(4).zip(port.chunks(4)).filter(|(rust, port)| rust[3] == 0 && **port == [0, 0, 0, alpha]);
    tally.add(name, black.count() as u64);
}

/// Counts colour blocks of DXT3 and DXT5 by the order of their endpoints.
fn count_endpoints(tally: &mut Tally, format: u32, blocks: impl Iterator<Item = [u8; 8]>) {
    for block in blocks {
        let order = match endpoints(block) {
            Ordering::Less => "rising",
            Ordering::Equal => "equal",
            Ordering::Greater => "falling",
        };
        tally.count(&format!("blocks of {format:04X} with {order} endpoints"));
    }
}

/// Counts the texels of DXT3 and DXT5 whose colour is not the one that the Rust's DXT1 has in the same bytes.
fn count_unlike_dxt1(tally: &mut Tally, format: u32, dxt1: &[u8], port: &[u8]) {
    let unlike = dxt1.chunks(4).zip(port.chunks(4)).filter(|(dxt1, port)| dxt1[..3] != port[..3]);
    tally.add(&format!("texels of {format:04X} whose colour is not DXT1's"), unlike.count() as u64);
}

fn try_call(tally: &mut Tally, call: &Call) {
    let number = tally.case(call, check, smaller);
    tally.count(&format!("{} answered {number}", name(call.op)));
    if number == 0 && call.op != Op::Size {
        let (w, h) = (call.width, call.height);
        if w == 0 || h == 0 {
            tally.count("images with a zero side");
        } else if call.op == Op::Compressed {
            tally.count(&format!("images of {:04X}", call.format));
            if DXT1.contains(&call.format) {
                let rust = rust::decode_compressed_to_rgba(&call.data, w, h, call.format).expect("it was answered with 0");
                count_black(tally, call.format, &rust, &answered(call).out);
            }
            if FOUR.contains(&call.format) {
                assert_eq!(rust::decode_compressed_to_rgba(&call.data, w, h, call.format), None);
                tally.count(&format!("images of {:04X} that the Rust refuses", call.format));
                let blocks = size_of(call.format, w, h).expect("it was answered with 0") / 16;
                count_endpoints(tally, call.format, colour_blocks(&call.data).take(blocks));
                let same_bytes: Vec<u8> = colour_blocks(&call.data).flatten().collect();
                let dxt1 = rust::decode_compressed_to_rgba(&same_bytes, w, h, DXT1[1]).expect("as many blocks");
                count_unlike_dxt1(tally, call.format, &dxt1, &answered(call).out);
            }
            if w % 4 != 0 || h % 4 != 0 {
                tally.count("compressed images with overhang or odd rows");
            }
        } else if PACKED.contains(&call.ty) {
            tally.count(&format!("images of type {:04X}", call.ty));
            if !FORMATS.contains(&call.format) {
                tally.count("packed images under an unknown format");
            }
        } else {
            tally.count(&format!("images of format {:04X}", call.format));
        }
    }
}

fn side(rng: &mut Rng, most: i64) -> u32 {
    match rng.below(40) {
        0 => 0,
        1..=20 => rng.between(1, 9.min(most)) as u32,
        21..=37 => rng.between(1, most) as u32,
        38 => rng.between(1023, 1026) as u32,
        _ => rng.pick(&[1025, 2048, 65_536, 1 << 31, u32::MAX]),
    }
}

/// A length about n: n itself most often, a little or a lot less or more.
fn about(rng: &mut Rng, n: usize) -> usize {
    match rng.below(20) {
        0 => n.saturating_sub(1),
        1 => rng.below(n as u64 + 1) as usize,
        2 => n + 1,
        3 => n + rng.below(40) as usize,
        4 => 0,
        _ => n,
    }
}

fn call(rng: &mut Rng, most: i64) -> Call {
    let op = OPS[[0, 0, 0, 1, 1, 1, 1, 2][rng.below(8) as usize]].0;
    let (mut width, mut height) = (side(rng, most), side(rng, most));
    // A long side goes with a short one, so that no image is large.
    if width > 1000 && width < 1025 {
        height = rng.below(5) as u32;
    } else if height > 1000 && height < 1025 {
        width = rng.below(5) as u32;
    }
    let strange = rng.chance(1, 12);
    let (format, ty) = match op {
        Op::Plain if strange => (rng.pick(&STRANGE), rng.pick(&[BYTE, 0x1400, 0x8362, 0xDEAD])),
        Op::Plain if rng.bool() => (rng.pick(&FORMATS), BYTE),
        Op::Plain if rng.chance(1, 4) => (rng.pick(&STRANGE), rng.pick(&PACKED)),
        Op::Plain => (rng.pick(&FORMATS), rng.pick(&PACKED)),
        _ if strange => (rng.pick(&STRANGE), 0),
        _ if rng.chance(3, 5) => (rng.pick(&BLOCKS), 0),
        _ => (rng.pick(&PALETTES), 0),
    };
    let small = width <= 1024 && height <= 1024;
    let texels = if small { width as usize * height as usize } else { rng.below(16) as usize };
    let needed = match op {
        Op::Plain => texels * rust::bytes_per_texel(format, ty).unwrap_or(2),
        _ if small => size_of(format, width, height).unwrap_or(16),
        _ => rng.below(64) as usize,
    };
    let n = if op == Op::Size { 0 } else { about(rng, needed) };
    let mut data = vec![0; n];
    rng.fill(&mut data);
    // Equal endpoints, and selectors that are all the same.
    if BLOCKS.contains(&format) && n >= 8 && rng.chance(1, 6) {
        let from = if n >= 16 && !DXT1.contains(&format) && format != ATC[0] { 8 } else { 0 };
        data.copy_within(from..from + 2, from + 2);
    }
    let out = if op == Op::Size { 0 } else { about(rng, texels * 4) };
    Call { op, width, height, format, ty, data, out }
}

/// All values of each packed type, in an image of 256 by 256, plain and as the entries of palettes.
fn every_packed_texel(ctx: &mut Ctx) {
    let data: Vec<u8> = (0..=u16::MAX).flat_map(u16::to_le_bytes).collect();
    for ty in PACKED {
        try_call(&mut ctx.tally, &Call { op: Op::Plain, width: 256, height: 256, format: 0x1908, ty, data: data.clone(), out: 262_144 });
        ctx.tally.add("packed texels", 65_536);
    }
    for format in PALETTES {
        for page in 0..256u32 {
            let mut data: Vec<u8> = (0..1024).map(|i| (i * 7 + page * 13) as u8).collect();
            data.truncate(rust::compressed_image_size(format, 0, 0).expect("a palette has a size"));
            data.extend((0..=255u8).map(|i| i.wrapping_add(page as u8)));
            try_call(&mut ctx.tally, &Call { op: Op::Compressed, width: 16, height: 16, format, ty: 0, data, out: 1024 });
        }
    }
    for v in 0..=u16::MAX {
        let p = rust::probe::expand4(v);
        let q = rust::probe::expand5(v);
        let r = rust::probe::expand6(v);
        ctx.tally.cases += 1;
        let mut out = [0; 8];
        let pair = [v.to_le_bytes(), v.wrapping_mul(32).to_le_bytes()].concat();
        port::decode_to_rgba(&pair[..2], 1, 1, 0x1908, 0x8033, &mut out[..4]);
        let four = out[3];
        port::decode_to_rgba(&pair, 2, 1, 0x1907, 0x8363, &mut out);
        if (p, q, r) != (four, out[2], out[5]) {
            ctx.tally.difference(format!("expand of {v:04x}: {:?} from the Rust, {:?} from the port", (p, q, r), (four, out[2], out[5])));
        }
    }
}

/// The sixteen texels of a block, as the port decodes an image of 4 by 4.
fn texels_of(format: u32, block: &[u8]) -> [[u8; 4]; 16] {
    let mut out = [0; 64];
    let number = port::decode_compressed_to_rgba(block, 4, 4, format, &mut out);
    assert_eq!(number, 0);
    std::array::from_fn(|i| std::array::from_fn(|c| out[i * 4 + c]))
}

fn joined(rgb: [[u8; 3]; 16], alpha: [u8; 16]) -> [[u8; 4]; 16] {
    std::array::from_fn(|i| [rgb[i][0], rgb[i][1], rgb[i][2], alpha[i]])
}

/// One block of eight bytes under each block format, against the Rust's own block decoders.
fn try_block(tally: &mut Tally, block: [u8; 8], alphas: [u8; 8]) {
    let difference = |&(block, alphas): &([u8; 8], [u8; 8])| {
        let (rgb, alpha) = rust::probe::dxt1_rgb_block(&block);
        let (four, opaque) = rust::probe::dxt1_rgb_block(&as_dxt1(block));
        assert_eq!(opaque, [255; 16], "the block to judge by has black texels");
        let atc = rust::probe::atc_rgb_block(&block);
        let both = [alphas, block].concat();
        let explicit: [u8; 16] = std::array::from_fn(|i| rust::probe::expand4(u16::from(alphas[i / 2] >> (4 * (i % 2)))));
        let interpolated = rust::probe::interpolated_alpha_block(&alphas);
        let wanted = [
            (DXT1[0], texels_of(DXT1[0], &block), joined(rgb, [255; 16])),
            (DXT1[1], texels_of(DXT1[1], &block), joined(rgb, alpha)),
            (FOUR[0], texels_of(FOUR[0], &both), joined(four, explicit)),
            (FOUR[1], texels_of(FOUR[1], &both), joined(four, interpolated)),
            (ATC[0], texels_of(ATC[0], &block), joined(atc, [255; 16])),
            (ATC[1], texels_of(ATC[1], &both), joined(atc, explicit)),
            (ATC[2], texels_of(ATC[2], &both), joined(atc, interpolated)),
        ];
        let wrong = wanted.into_iter().find(|(_, port, rust)| port != rust);
        ((), wrong.map(|(format, port, rust)| format!("a block of {format:04X}: {rust:?} wanted, {port:?} from the port")))
    };
    tally.case(&(block, alphas), difference, |_| Vec::new());
    let (rgb, alpha) = rust::probe::dxt1_rgb_block(&block);
    for format in DXT1 {
        count_black(tally, format, joined(rgb, alpha).as_flattened(), texels_of(format, &block).as_flattened());
    }
    for format in FOUR {
        count_endpoints(tally, format, [block].into_iter());
        let port = texels_of(format, &[alphas, block].concat());
        count_unlike_dxt1(tally, format, joined(rgb, alpha).as_flattened(), port.as_flattened());
    }
}

/// Every pair of ends of an alpha block; endpoints of every order; any block.
fn blocks(ctx: &mut Ctx) {
    // Selectors 0 to 7, twice.
    let selectors = [0x88, 0xC6, 0xFA, 0x88, 0xC6, 0xFA];
    ctx.spread("alpha ends", 65_536, 1 << 12, |tally, rng, range| {
        for n in range {
            let [a, b] = (n as u16).to_le_bytes();
            let [c, d, e, f, g, h] = selectors;
            let mut block = [0; 8];
            rng.fill(&mut block);
            try_block(tally, block, [a, b, c, d, e, f, g, h]);
            tally.count("alpha ends");
        }
    });
    let ends: Vec<u16> = (0..16).map(|i| 1 << i).chain((0..16).map(|i| u16::MAX << i)).chain([0, 0x7FFF, 0x8000, 0x7BEF, 0xF81F, 0x07E0, 0xFFFE]).collect();
    let n = ends.len() as u64;
    ctx.spread("endpoints", n * n, 64, |tally, rng, range| {
        for i in range {
            let (c0, c1) = (ends[(i / n) as usize], ends[(i % n) as usize]);
            let mut alphas = [0; 8];
            rng.fill(&mut alphas);
            let [a, b] = c0.to_le_bytes();
            let [c, d] = c1.to_le_bytes();
            // Selectors 0 to 3 in every row, in either order.
            try_block(tally, [a, b, c, d, 0xE4, 0x1B, 0xE4, 0x1B], alphas);
            tally.count(if c0 < c1 { "endpoints rising" } else if c0 == c1 { "endpoints equal" } else { "endpoints falling" });
            tally.count(if c0 < 0x8000 { "ATC mode 0" } else { "ATC mode 1" });
        }
    });
    // Each of the 48 bits of an alpha block's selectors alone, and missing alone, its ends falling and rising; the worked cases of 2026-04.
    let mut rng = ctx.rng("alpha bits");
    for bit in 0..48 {
        for ends in [[255, 0], [0, 255]] {
            for bits in [1u64 << bit, !(1 << bit)] {
                let [c, d, e, f, g, h, ..] = bits.to_le_bytes();
                let mut block = [0; 8];
                rng.fill(&mut block);
                try_block(&mut ctx.tally, block, [ends[0], ends[1], c, d, e, f, g, h]);
                ctx.tally.count("alpha bits alone or missing");
            }
        }
    }
    for [c, d, e, f, g, h] in [selectors, [0xFF, 0xFF, 0xFF, 0, 0, 0], [0, 0, 0x80, 0, 0, 0], [0, 0, 0, 1, 0, 0], [0x92, 0x24, 0x49, 0x92, 0x24, 0x49]] {
        try_block(&mut ctx.tally, [0; 8], [255, 0, c, d, e, f, g, h]);
        ctx.tally.count("alpha halves worked");
    }
    let random = ctx.cases / 4;
    ctx.spread("blocks", random, 1 << 12, |tally, rng, range| {
        for _ in range {
            let (mut block, mut alphas) = ([0; 8], [0; 8]);
            rng.fill(&mut block);
            rng.fill(&mut alphas);
            if rng.chance(1, 4) {
                block.copy_within(0..2, 2);
            }
            try_block(tally, block, alphas);
            tally.count("random blocks");
        }
    });
    // The worked cases of 2026-02, under both codes.
    for block in [
        [0x1F, 0x00, 0x00, 0xF8, 0xFF, 0xFF, 0xFF, 0xFF],
        [0x00, 0xF8, 0x00, 0xF8, 0xFF, 0xFF, 0xFF, 0xFF],
        [0x00, 0xF8, 0x00, 0xF8, 0xAA, 0xAA, 0xAA, 0xAA],
        [0x00, 0xF8, 0x1F, 0x00, 0xFF, 0xFF, 0xFF, 0xFF],
    ] {
        try_block(&mut ctx.tally, block, [0; 8]);
        ctx.tally.count("black blocks worked");
    }
    ctx.floor("black blocks worked", 4);
    // The worked cases of 2026-14, each under both codes.
    for (alphas, block) in [
        ([0x77; 8], [0x1F, 0x00, 0x00, 0xF8, 0xFF, 0xFF, 0xFF, 0xFF]),
        ([0x10, 0x32, 0x54, 0x76, 0x98, 0xBA, 0xDC, 0xFE], [0x1F, 0x00, 0x00, 0xF8, 0xFF, 0xFF, 0xFF, 0xFF]),
        ([0xF0, 0x0F, 0, 0, 0, 0, 0, 0], [0x00, 0xF8, 0x1F, 0x00, 0xE4, 0xE4, 0xE4, 0xE4]),
        ([0xFF, 0x00, 0x92, 0x24, 0x49, 0x92, 0x24, 0x49], [0x1F, 0x00, 0x00, 0xF8, 0xAA, 0xAA, 0xAA, 0xAA]),
        ([0xFF, 0x00, 0, 0, 0, 0, 0, 0], [0x00, 0xF8, 0x00, 0xF8, 0xFF, 0xFF, 0xFF, 0xFF]),
    ] {
        try_block(&mut ctx.tally, block, alphas);
        ctx.tally.count("DXT3 and DXT5 blocks worked");
    }
    ctx.floor("DXT3 and DXT5 blocks worked", 5);
    for name in ["endpoints rising", "endpoints falling", "ATC mode 0", "ATC mode 1"] {
        ctx.floor(name, 200);
    }
    ctx.floor("endpoints equal", 30);
    ctx.floor("alpha ends", 65_536);
    ctx.floor("alpha bits alone or missing", 192);
    ctx.floor("alpha halves worked", 5);
}

/// Every size from 0 by 0 to 9 by 9 and about the largest, under every format; block_counts and decode_paletted beside.
fn every_small_size(ctx: &mut Ctx) {
    let codes: Vec<u32> = BLOCKS.iter().chain(&PALETTES).chain(&STRANGE).copied().collect();
    let sides: Vec<u32> = (0..10).chain([1023, 1024, 1025]).collect();
    for &format in &codes {
        for &width in &sides {
            for &height in &sides {
                try_call(&mut ctx.tally, &Call { op: Op::Size, width, height, format, ty: 0, data: Vec::new(), out: 0 });
                ctx.tally.count("sizes");
                if width > 9 || height > 9 {
                    continue;
                }
                let mut rng = ctx.rng(&format!("{format:x}/{width}/{height}"));
                let n = size_of(format, width, height).unwrap_or(9);
                for n in [n, n + 1, n.saturating_sub(1)] {
                    let data = rng.bytes(n);
                    try_call(&mut ctx.tally, &Call { op: Op::Compressed, width, height, format, ty: 0, data, out: (width * height * 4) as usize });
                }
                let (bw, bh) = rust::probe::block_counts(width, height);
                let (number, size) = port::compressed_image_size(DXT1[0], width, height, 0);
                let data = rng.bytes(1200);
                let mut out = vec![0; (width * height * 4) as usize];
                if PALETTES.contains(&format) && port::decode_compressed_to_rgba(&data, width, height, format, &mut out) == 0 {
                    let image = rust::probe::decode_paletted(&data, width, height, format).expect("1,200 bytes are enough");
                    if let Some(words) = same::bytes("decode_paletted", &image, &out) {
                        ctx.tally.difference(words);
                    }
                }
                ctx.tally.cases += 2;
                if (number, size) != (0, bw * bh * 8) {
                    ctx.tally.difference(format!("block_counts of {width} by {height}: {bw}, {bh} from the Rust, {size} bytes from the port"));
                }
            }
        }
    }
    for format in FORMATS.iter().chain(&STRANGE).chain(&BLOCKS) {
        for ty in PACKED.iter().chain(&[BYTE]).chain(&STRANGE) {
            let (rust, port) = (rust::bytes_per_texel(*format, *ty).unwrap_or(0), port::bytes_per_texel(*format, *ty));
            ctx.tally.cases += 1;
            if rust != port {
                ctx.tally.difference(format!("bytes_per_texel of {format:x}, {ty:x}: {rust} from the Rust, {port} from the port"));
            }
        }
    }
}

fn run(ctx: &mut Ctx) {
    every_packed_texel(ctx);
    every_small_size(ctx);
    blocks(ctx);
    ctx.spread("calls", ctx.cases, 1 << 10, |tally, rng, range| {
        for _ in range {
            let call = call(rng, 20);
            try_call(tally, &call);
            tally.count("random calls");
        }
    });
    for (op, numbers) in [("plain", &[0, 9, 11, 14, 15][..]), ("compressed", &[0, 9, 11, 14, 15]), ("size", &[0, 9, 14])] {
        for number in numbers {
            ctx.floor(&format!("{op} answered {number}"), 1000);
        }
    }
    for name in [OPAQUE_BLACK, TRANSPARENT_BLACK] {
        ctx.floor(name, 500_000);
    }
    for format in FOUR {
        ctx.floor(&format!("images of {format:04X} that the Rust refuses"), 1000);
        for order in ["rising", "equal", "falling"] {
            ctx.floor(&format!("blocks of {format:04X} with {order} endpoints"), 50_000);
        }
        ctx.floor(&format!("texels of {format:04X} whose colour is not DXT1's"), 500_000);
    }
    ctx.floor("images with a zero side", 1000);
    ctx.floor("compressed images with overhang or odd rows", 1000);
    ctx.floor("packed images under an unknown format", 1000);
    for format in BLOCKS.iter().chain(&PALETTES) {
        ctx.floor(&format!("images of {format:04X}"), 1000);
    }
    for format in FORMATS {
        ctx.floor(&format!("images of format {format:04X}"), 1000);
    }
    for ty in PACKED {
        ctx.floor(&format!("images of type {ty:04X}"), 1000);
    }
}

/// An entry: operation, width, height, format, type, bytes of data, bytes of output, number, size, the data, the output.
fn entry(record: &mut Record, call: &Call, left: &Left) {
    let mut bytes = vec![OPS.iter().position(|(op, _)| *op == call.op).expect("every operation has a place") as u8];
    for n in [call.width, call.height, call.format, call.ty, call.data.len() as u32, call.out as u32, left.number] {
        bytes.extend(n.to_le_bytes());
    }
    bytes.extend((left.size as u64).to_le_bytes());
    bytes.extend(&call.data);
    bytes.extend(&left.out);
    record.entry(&bytes);
}

/// How many bytes of output the replay has room for.
const ROOM: usize = 1024;

fn record(record: &mut Record) {
    let mut rng = Rng::named(1, "texels/record", 0);
    let mut heavy = 0;
    while record.answers() < 1500 {
        let call = call(&mut rng, 7);
        if call.out > ROOM {
            continue;
        }
        // A palette of 256 entries is long: some are enough.
        if call.data.len() > 400 {
            heavy += 1;
            if heavy > 120 {
                continue;
            }
        }
        let left = wanted(&call);
        entry(record, &call, &left);
    }
    // Interpolated alphas of equal ends under each selector: 0 under 6 and 255 under 7, as of rising ends.
    for format in [ATC[2], FOUR[1]] {
        for end in [0, 77, 255] {
            let selectors = (0..16).fold(0u64, |bits, i| bits | (i % 8) << (3 * i)).to_le_bytes();
            let data = [&[end, end], &selectors[..6], &[0, 0xf8, 0x1f, 0, 0xe4, 0xe4, 0xe4, 0xe4]].concat();
            let call = Call { op: Op::Compressed, width: 4, height: 4, format, ty: 0, data, out: 64 };
            let left = wanted(&call);
            entry(record, &call, &left);
        }
    }
}
