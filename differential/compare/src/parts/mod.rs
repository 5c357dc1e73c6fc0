//! The list of parts. A part is a file here with `pub const PART: Part`; its name is one line of the list.
use crate::Part;

macro_rules! parts {
    ($($name:ident,)*) => {
        $(mod $name;)*
        pub const PARTS: &[Part] = &[$($name::PART),*];
    };
}

parts! {
    oracle,
    floats,
    clip,
    settings,
    target,
    sampling,
    texels,
    texture,
    draw,
    guests,
    boundary,
}
