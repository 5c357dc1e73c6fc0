//! Every function of include/tilefringe.h called with any numbers, pointers and lengths that the header allows.
use crate::lent::Lent;
use crate::raw::*;

/// How a call uses memory that it is lent.
#[derive(Clone, Copy, Debug, PartialEq, Eq)]
pub enum Use {
    /// Bytes that are only read.
    Read,
    /// Bytes that may be written.
    Write,
    /// Floats that may be written; the length counts floats.
    Floats,
    /// One number of so many bytes that may be written: a pointer without a length, never null.
    Number(usize),
}

impl Use {
    pub fn is_written(self) -> bool {
        self != Use::Read
    }

    /// The bytes of an element.
    pub fn step(self) -> usize {
        if self == Use::Floats { 4 } else { 1 }
    }
}

#[derive(Clone, Copy, Debug, PartialEq, Eq)]
pub enum Kind {
    U8,
    U32,
    I32,
    F32,
    Size,
}

/// A function's slices and numbers, each in the header's order, and what it may answer.
pub struct Function {
    pub name: &'static str,
    pub slices: &'static [(&'static str, Use)],
    pub numbers: &'static [(&'static str, Kind)],
    pub answers: &'static [u32],
}

use Kind::*;
use Use::*;

const SCISSOR: [(&str, Kind); 5] = [("boxed", U32), ("box_x", I32), ("box_y", I32), ("box_width", I32), ("box_height", I32)];

// Places in the list of functions.
pub const BYTES_PER_TEXEL: usize = 0;
pub const DECODE: usize = 1;
pub const DECODE_COMPRESSED: usize = 2;
pub const IMAGE_SIZE: usize = 3;
pub const SAMPLE: usize = 4;
pub const CLEAR_COLOR: usize = 5;
pub const CLEAR_DEPTH: usize = 6;
pub const EXPORT: usize = 7;
pub const COMPARE_FUNC: usize = 8;
pub const BLEND_FACTOR: usize = 9;
pub const NEW_TEXTURE: usize = 10;
pub const DEFINE: usize = 11;
pub const PATCH: usize = 12;
pub const SET_PARAMETER: usize = 13;
pub const DRAW: usize = 14;

/// In the header's order.
pub const FUNCTIONS: [Function; 15] = [
    Function {
        name: "tf_bytes_per_texel",
        slices: &[],
        numbers: &[("format", U32), ("type", U32)],
        answers: &[0, 1, 2, 3, 4],
    },
    Function {
        name: "tf_decode_to_rgba",
        slices: &[("data", Read), ("out", Write)],
        numbers: &[("width", U32), ("height", U32), ("format", U32), ("type", U32)],
        answers: &[0, 14, 9, 11, 15],
    },
    Function {
        name: "tf_decode_compressed_to_rgba",
        slices: &[("data", Read), ("out", Write)],
        numbers: &[("width", U32), ("height", U32), ("format", U32)],
        answers: &[0, 9, 14, 11, 15],
    },
    Function {
        name: "tf_compressed_image_size",
        slices: &[("size", Number(8))],
        numbers: &[("format", U32), ("width", U32), ("height", U32)],
        answers: &[0, 9, 14],
    },
    Function {
        name: "tf_sample",
        slices: &[("record", Read), ("store", Read), ("texel", Number(4))],
        numbers: &[("s", F32), ("t", F32), ("dsdx", F32), ("dtdx", F32), ("dsdy", F32), ("dtdy", F32)],
        answers: &[0, 8, 255],
    },
    Function {
        name: "tf_clear_color",
        slices: &[("colors", Write)],
        numbers: &[
            ("depths_len", Size),
            ("width", U32),
            ("height", U32),
            ("r", U8),
            ("g", U8),
            ("b", U8),
            ("a", U8),
            SCISSOR[0],
            SCISSOR[1],
            SCISSOR[2],
            SCISSOR[3],
            SCISSOR[4],
        ],
        answers: &[0, 1, 2],
    },
    Function {
        name: "tf_clear_depth",
        slices: &[("depths", Floats)],
        numbers: &[
            ("colors_len", Size),
            ("width", U32),
            ("height", U32),
            ("value", F32),
            SCISSOR[0],
            SCISSOR[1],
            SCISSOR[2],
            SCISSOR[3],
            SCISSOR[4],
        ],
        answers: &[0, 1, 2, 4],
    },
    Function {
        name: "tf_to_rgb565",
        slices: &[("colors", Read), ("out", Write)],
        numbers: &[("depths_len", Size), ("width", U32), ("height", U32)],
        answers: &[0, 1],
    },
    Function { name: "tf_compare_func", slices: &[], numbers: &[("code", U32)], answers: &[0, 16] },
    Function { name: "tf_blend_factor", slices: &[], numbers: &[("code", U32)], answers: &[0, 16] },
    Function { name: "tf_new_texture", slices: &[("record", Write)], numbers: &[], answers: &[0, 255] },
    Function {
        name: "tf_define_level",
        slices: &[("record", Write), ("store", Write), ("rgba", Read)],
        numbers: &[("level", U32), ("width", U32), ("height", U32), ("place", Size)],
        answers: &[0, 9, 8, 11, 10, 255],
    },
    Function {
        name: "tf_patch_level",
        slices: &[("record", Read), ("store", Write), ("patch", Read)],
        numbers: &[("level", U32), ("xoffset", U32), ("yoffset", U32), ("width", U32), ("height", U32)],
        answers: &[0, 8, 12, 13, 11, 255],
    },
    Function {
        name: "tf_set_parameter",
        slices: &[("record", Write)],
        numbers: &[("pname", U32), ("value", U32)],
        answers: &[0, 16, 255],
    },
    Function {
        name: "tf_draw_triangle",
        slices: &[
            ("colors", Write),
            ("depths", Floats),
            ("store", Read),
            ("units", Read),
            ("settings", Read),
            ("stages", Read),
            ("vertices", Read),
        ],
        numbers: &[("width", U32), ("height", U32)],
        answers: &[0, 1, 2, 3, 4, 7, 6, 8, 5, 255],
    },
];

/// Calls the function at this place of the list with these numbers, as bits, and this memory. What is lent for writing is lent once.
pub fn call(function: usize, numbers: &[u64], lent: &[Lent]) -> u64 {
    let Function { slices, numbers: kinds, .. } = &FUNCTIONS[function];
    assert!(kinds.len() == numbers.len() && slices.len() == lent.len());
    for (l, (_, how)) in lent.iter().zip(*slices) {
        assert!(l.writable || !how.is_written());
        match how {
            Floats => assert!(l.len % 4 == 0 && l.pointer as usize % 4 == 0),
            Number(n) => assert!(l.len == *n && !l.pointer.is_null() && l.pointer as usize % n == 0),
            Read | Write => {}
        }
    }
    let size = |i: usize| numbers[i] as usize;
    let n = |i: usize| numbers[i] as u32;
    let int = |i: usize| numbers[i] as i32;
    let byte = |i: usize| numbers[i] as u8;
    let float = |i: usize| f32::from_bits(numbers[i] as u32);
    let p = |i: usize| lent[i].pointer;
    let len = |i: usize| lent[i].len;
    let floats = |i: usize| lent[i].len / 4;
    let answer = unsafe {
        match function {
            BYTES_PER_TEXEL => return tf_bytes_per_texel(n(0), n(1)) as u64,
            DECODE => tf_decode_to_rgba(p(0), len(0), n(0), n(1), n(2), n(3), p(1), len(1)),
            DECODE_COMPRESSED => tf_decode_compressed_to_rgba(p(0), len(0), n(0), n(1), n(2), p(1), len(1)),
            IMAGE_SIZE => tf_compressed_image_size(n(0), n(1), n(2), p(0).cast()),
            SAMPLE => tf_sample(p(0), len(0), p(1), len(1), float(0), float(1), float(2), float(3), float(4), float(5), p(2).cast()),
            CLEAR_COLOR => tf_clear_color(
                p(0),
                len(0),
                size(0),
                n(1),
                n(2),
                byte(3),
                byte(4),
                byte(5),
                byte(6),
                n(7),
                int(8),
                int(9),
                int(10),
                int(11),
            ),
            CLEAR_DEPTH => tf_clear_depth(p(0).cast(), floats(0), size(0), n(1), n(2), float(3), n(4), int(5), int(6), int(7), int(8)),
            EXPORT => tf_to_rgb565(p(0), len(0), size(0), n(1), n(2), p(1), len(1)),
            COMPARE_FUNC => tf_compare_func(n(0)),
            BLEND_FACTOR => tf_blend_factor(n(0)),
            NEW_TEXTURE => tf_new_texture(p(0), len(0)),
            DEFINE => tf_define_level(p(0), len(0), p(1), len(1), n(0), n(1), n(2), size(3), p(2), len(2)),
            PATCH => tf_patch_level(p(0), len(0), p(1), len(1), n(0), n(1), n(2), n(3), n(4), p(2), len(2)),
            SET_PARAMETER => tf_set_parameter(p(0), len(0), n(0), n(1)),
            _ => {
                return tf_draw_triangle(
                    p(0),
                    len(0),
                    p(1).cast(),
                    floats(1),
                    n(0),
                    n(1),
                    p(2),
                    len(2),
                    p(3),
                    len(3),
                    p(4),
                    len(4),
                    p(5),
                    len(5),
                    p(6),
                    len(6),
                )
            }
        }
    };
    u64::from(answer)
}
