//! A PNG of an RGB image: one filter for all rows, the one that comes out smallest; one deflate block with the fixed codes.

pub fn encode(width: usize, height: usize, rgb: &[u8]) -> Vec<u8> {
    assert_eq!(rgb.len(), 3 * width * height);
    let mut png = b"\x89PNG\r\n\x1a\n".to_vec();
    let mut header = Vec::new();
    header.extend((width as u32).to_be_bytes());
    header.extend((height as u32).to_be_bytes());
    header.extend([8, 2, 0, 0, 0]); // eight bits, RGB, no interlace
    chunk(&mut png, b"IHDR", &header);
    let data = [0, 1, 2].map(|filter| zlib(&filtered(width, rgb, filter))).into_iter().min_by_key(Vec::len).unwrap();
    chunk(&mut png, b"IDAT", &data);
    chunk(&mut png, b"IEND", &[]);
    png
}

fn chunk(png: &mut Vec<u8>, kind: &[u8; 4], data: &[u8]) {
    png.extend((data.len() as u32).to_be_bytes());
    let from = png.len();
    png.extend(kind);
    png.extend(data);
    let crc = crc32(&png[from..]);
    png.extend(crc.to_be_bytes());
}

fn crc32(data: &[u8]) -> u32 {
    let step = |c: u32| if c & 1 == 1 { 0xEDB8_8320 ^ (c >> 1) } else { c >> 1 };
    !data.iter().fold(!0, |crc, &byte| (0..8).fold(crc ^ u32::from(byte), |c, _| step(c)))
}

fn adler32(data: &[u8]) -> u32 {
    let (a, b) = data.iter().fold((1, 0), |(a, b), &byte| {
        let a = (a + u32::from(byte)) % 65_521;
        (a, (b + a) % 65_521)
    });
    b << 16 | a
}

/// Every row as it is (0), less its left neighbour (1) or less the row above (2).
fn filtered(width: usize, rgb: &[u8], filter: u8) -> Vec<u8> {
    let bytes = 3 * width;
    let mut out = Vec::new();
    for (y, row) in rgb.chunks_exact(bytes).enumerate() {
        out.push(filter);
        out.extend((0..bytes).map(|i| match filter {
            1 if i >= 3 => row[i].wrapping_sub(row[i - 3]),
            2 if y > 0 => row[i].wrapping_sub(rgb[(y - 1) * bytes + i]),
            _ => row[i],
        }));
    }
    out
}

fn zlib(data: &[u8]) -> Vec<u8> {
    let mut out = vec![0x78, 0x01];
    out.extend(deflate(data));
    out.extend(adler32(data).to_be_bytes());
    out
}

struct Bits {
    out: Vec<u8>,
    held: u32,
    count: u32,
}

impl Bits {
    /// The lowest bit first.
    fn put(&mut self, bits: u32, count: u32) {
        self.held |= bits << self.count;
        self.count += count;
        while self.count >= 8 {
            self.out.push(self.held as u8);
            self.held >>= 8;
            self.count -= 8;
        }
    }

    /// A code goes with its highest bit first.
    fn code(&mut self, code: u32, count: u32) {
        self.put(code.reverse_bits() >> (32 - count), count);
    }

    fn symbol(&mut self, symbol: u32) {
        match symbol {
            0..=143 => self.code(0x30 + symbol, 8),
            144..=255 => self.code(0x190 + symbol - 144, 9),
            256..=279 => self.code(symbol - 256, 7),
            _ => self.code(0xC0 + symbol - 280, 8),
        }
    }
}

const LENGTHS: [u32; 29] =
    [3, 4, 5, 6, 7, 8, 9, 10, 11, 13, 15, 17, 19, 23, 27, 31, 35, 43, 51, 59, 67, 83, 99, 115, 131, 163, 195, 227, 258];
const LENGTH_BITS: [u32; 29] = [0, 0, 0, 0, 0, 0, 0, 0, 1, 1, 1, 1, 2, 2, 2, 2, 3, 3, 3, 3, 4, 4, 4, 4, 5, 5, 5, 5, 0];
const DISTANCES: [u32; 30] = [
    1, 2, 3, 4, 5, 7, 9, 13, 17, 25, 33, 49, 65, 97, 129, 193, 257, 385, 513, 769, 1_025, 1_537, 2_049, 3_073, 4_097, 6_145, 8_193, 12_289,
    16_385, 24_577,
];

fn deflate(data: &[u8]) -> Vec<u8> {
    const WINDOW: usize = 32_768;
    let mut bits = Bits { out: Vec::new(), held: 0, count: 0 };
    bits.put(0b011, 3); // the last block, fixed codes
                        // The last place of each hash of three bytes, and of each place the one before it with the same hash; places count from 1.
    let mut last = vec![0usize; 1 << 15];
    let mut before = vec![0usize; data.len()];
    let hash = |at: usize| (usize::from(data[at]) << 10 ^ usize::from(data[at + 1]) << 5 ^ usize::from(data[at + 2])) & 0x7FFF;
    let mut at = 0;
    while at < data.len() {
        let (mut length, mut distance) = (0, 0);
        if at + 3 <= data.len() {
            let mut place = last[hash(at)];
            for _ in 0..64 {
                if place == 0 || at - (place - 1) > WINDOW {
                    break;
                }
                let from = place - 1;
                let same = (0..258.min(data.len() - at)).take_while(|i| data[from + i] == data[at + i]).count();
                if same > length {
                    (length, distance) = (same, at - from);
                }
                place = before[from];
            }
        }
        if length < 3 {
            length = 1;
            bits.symbol(u32::from(data[at]));
        } else {
            let k = LENGTHS.iter().rposition(|&base| base as usize <= length).unwrap();
            bits.symbol(257 + k as u32);
            bits.put(length as u32 - LENGTHS[k], LENGTH_BITS[k]);
            let k = DISTANCES.iter().rposition(|&base| base as usize <= distance).unwrap();
            bits.code(k as u32, 5);
            bits.put(distance as u32 - DISTANCES[k], (k as u32 / 2).saturating_sub(1));
        }
        for i in at..at + length {
            if i + 3 <= data.len() {
                before[i] = last[hash(i)];
                last[hash(i)] = i + 1;
            }
        }
        at += length;
    }
    bits.symbol(256);
    bits.put(0, 7); // to a whole byte
    bits.out
}

#[cfg(test)]
mod tests {
    use super::*;

    #[test]
    fn sums_are_the_published_ones() {
        assert_eq!(crc32(b"123456789"), 0xCBF4_3926);
        assert_eq!(adler32(b"Wikipedia"), 0x11E6_0398);
    }

    #[test]
    fn a_block_of_fixed_codes() {
        // "aaaaaaaaaa": a literal, then nine at distance 1.
        assert_eq!(deflate(b"aaaaaaaaaa"), [0x4B, 0x84, 0x03, 0x00]);
    }
}
