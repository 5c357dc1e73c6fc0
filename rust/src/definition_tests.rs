//! Codes and defaults, held to the constants and definitions of the Rattle crates, and to the codes that the archive knows.
use crate::*;
use std::collections::BTreeMap;

const HEADER: &str = include_str!("../../include/tilefringe.h");
const INTERFACE: &str = include_str!("../../docs/INTERFACE.md");
const CONSTS: &str = include_str!("../../crates/consts/src/lib.rt");
const VERTEX: &str = include_str!("../../crates/vertices/specs/Vertex.antt");
const SETTINGS: &str = include_str!("../../crates/settings/specs/Settings.antt");

/// The constants of crates/consts by their names, without `GL_`.
fn consts() -> BTreeMap<&'static str, u32> {
    let lines = CONSTS.lines().filter_map(|line| line.strip_prefix("pub const GL_")?.strip_suffix(';')?.split_once(": u32 = "));
    lines
        .map(|(name, number)| match number.strip_prefix("0x") {
            Some(hex) => (name, u32::from_str_radix(hex, 16).unwrap()),
            None => (name, number.parse().unwrap()),
        })
        .collect()
}

const FORMATS: [(&str, Format); 5] = [
    ("ALPHA", Format::ALPHA),
    ("RGB", Format::RGB),
    ("RGBA", Format::RGBA),
    ("LUMINANCE", Format::LUMINANCE),
    ("LUMINANCE_ALPHA", Format::LUMINANCE_ALPHA),
];

const TYPES: [(&str, TexelType); 4] = [
    ("UNSIGNED_BYTE", TexelType::UNSIGNED_BYTE),
    ("UNSIGNED_SHORT_4_4_4_4", TexelType::UNSIGNED_SHORT_4_4_4_4),
    ("UNSIGNED_SHORT_5_5_5_1", TexelType::UNSIGNED_SHORT_5_5_5_1),
    ("UNSIGNED_SHORT_5_6_5", TexelType::UNSIGNED_SHORT_5_6_5),
];

const COMPRESSED: [(&str, CompressedFormat); 17] = [
    ("COMPRESSED_RGB_S3TC_DXT1_EXT", CompressedFormat::RGB_S3TC_DXT1),
    ("COMPRESSED_RGBA_S3TC_DXT1_EXT", CompressedFormat::RGBA_S3TC_DXT1),
    ("COMPRESSED_RGBA_S3TC_DXT3_EXT", CompressedFormat::RGBA_S3TC_DXT3),
    ("COMPRESSED_RGBA_S3TC_DXT5_EXT", CompressedFormat::RGBA_S3TC_DXT5),
    ("ATC_RGB_AMD", CompressedFormat::ATC_RGB),
    ("ATC_RGBA_EXPLICIT_ALPHA_AMD", CompressedFormat::ATC_RGBA_EXPLICIT_ALPHA),
    ("ATC_RGBA_INTERPOLATED_ALPHA_AMD", CompressedFormat::ATC_RGBA_INTERPOLATED_ALPHA),
    ("PALETTE4_RGB8_OES", CompressedFormat::PALETTE4_RGB8),
    ("PALETTE4_RGBA8_OES", CompressedFormat::PALETTE4_RGBA8),
    ("PALETTE4_R5_G6_B5_OES", CompressedFormat::PALETTE4_R5_G6_B5),
    ("PALETTE4_RGBA4_OES", CompressedFormat::PALETTE4_RGBA4),
    ("PALETTE4_RGB5_A1_OES", CompressedFormat::PALETTE4_RGB5_A1),
    ("PALETTE8_RGB8_OES", CompressedFormat::PALETTE8_RGB8),
    ("PALETTE8_RGBA8_OES", CompressedFormat::PALETTE8_RGBA8),
    ("PALETTE8_R5_G6_B5_OES", CompressedFormat::PALETTE8_R5_G6_B5),
    ("PALETTE8_RGBA4_OES", CompressedFormat::PALETTE8_RGBA4),
    ("PALETTE8_RGB5_A1_OES", CompressedFormat::PALETTE8_RGB5_A1),
];

/// `CamelCase` as `CAMEL_CASE`.
fn upper(name: &str) -> String {
    let mut upper = String::new();
    for c in name.chars() {
        if c.is_uppercase() && !upper.is_empty() {
            upper.push('_');
        }
        upper.push(c.to_ascii_uppercase());
    }
    upper
}

/// OpenGL's name of a value of one of the enums.
fn gl_name(value: &str) -> String {
    match value {
        "LessOrEqual" => "LEQUAL".to_string(),
        "NotEqual" => "NOTEQUAL".to_string(),
        "GreaterOrEqual" => "GEQUAL".to_string(),
        "Clockwise" => "CW".to_string(),
        "CounterClockwise" => "CCW".to_string(),
        "Exp2" => "EXP2".to_string(),
        _ => upper(value),
    }
}

/// The values of the enums by their names in Rust, and their codes.
fn values() -> Vec<(String, u32)> {
    macro_rules! all {
        ($($name:ident),+) => { [$($name::ALL.iter().map(|v| (format!("{v:?}"), v.code())).collect::<Vec<_>>()),+].concat() };
    }
    let mut values = all!(CompareFunc, BlendFactor, Face, FrontFace, Environment, MinFilter, Filter, Wrap);
    // OpenGL's name for linear fog is that of the filter.
    values.extend(FogMode::ALL.iter().map(|v| (if *v == FogMode::Linear { "LinearFog".to_string() } else { format!("{v:?}") }, v.code())));
    values
}

#[test]
fn codes_are_those_of_consts() {
    let consts = consts();
    let mut named: Vec<(String, u32)> = values().into_iter().map(|(name, code)| (gl_name(&name), code)).collect();
    named.extend(FORMATS.map(|(name, format)| (name.to_string(), format.0)));
    named.extend(TYPES.map(|(name, ty)| (name.to_string(), ty.0)));
    named.extend(COMPRESSED.map(|(name, format)| (name.to_string(), format.0)));
    named.extend(texture::PARAMETERS.map(|(name, code)| (name.to_string(), code)));
    for (name, code) in &named {
        assert_eq!(consts.get(name.as_str()), Some(code), "{name}");
    }
    // What no name of this crate stands for: parameters without effect.
    let rest = ["TEXTURE_LOD_BIAS_EXT"];
    let unnamed = consts.keys().filter(|name| !name.ends_with("_SGIS") && named.iter().all(|(own, _)| own != **name));
    assert_eq!(unnamed.copied().collect::<Vec<_>>(), rest);
}

/// The codes of four hexadecimal digits in a text, and those between the ends of `8B90 to 8B94`.
fn codes_of(text: &str) -> Vec<u32> {
    let words: Vec<&str> = text.split(|c: char| !c.is_ascii_alphanumeric()).filter(|word| !word.is_empty()).collect();
    let code = |word: &str| {
        let digits = word.strip_prefix("0x").unwrap_or(word);
        u32::from_str_radix(digits, 16).ok().filter(|_| digits.len() == 4)
    };
    let ranges = words.windows(3).filter(|three| three[1] == "to").filter_map(|three| Some(code(three[0])?..=code(three[2])?));
    words.iter().filter_map(|word| code(word)).chain(ranges.flatten()).collect()
}

#[test]
fn the_documents_have_the_codes() {
    let (header, interface) = (codes_of(HEADER), codes_of(INTERFACE));
    for (name, format) in COMPRESSED {
        assert!(header.contains(&format.0), "the header has no {name}");
        assert!(interface.contains(&format.0), "docs/INTERFACE.md has no {name}");
    }
    let plain = FORMATS.map(|(_, format)| format.0).into_iter().chain(TYPES.map(|(_, ty)| ty.0));
    // The factors 0 and 1 are written as they are.
    let known = values().into_iter().map(|(_, code)| code).filter(|code| *code > 1);
    for code in plain.chain(known).chain(texture::PARAMETERS.map(|(_, code)| code)) {
        assert!(interface.contains(&code), "docs/INTERFACE.md has no {code:04X}");
    }
}

/// Whether a draw by these layouts is a call: any answer but 255.
fn is_call(settings: &[u8], stages: &[u8]) -> bool {
    let units = [Texture::new(), Texture::new(), Texture::new(), Texture::new()].map(|texture| *texture.as_bytes()).concat();
    let vertices = [Vertex::default().to_bytes(); 3].concat();
    let none = std::ptr::null_mut;
    // SAFETY: each pointer and length are of one slice; colours, depths and store have length 0.
    let answer = unsafe {
        ffi::tf_draw_triangle(
            none(),
            0,
            none().cast(),
            0,
            0,
            0,
            none(),
            0,
            units.as_ptr(),
            units.len(),
            settings.as_ptr(),
            settings.len(),
            stages.as_ptr(),
            stages.len(),
            vertices.as_ptr(),
            vertices.len(),
        )
    };
    answer >> 32 != 255
}

/// Of all codes below 65,536, and those that have one more bit, the enums have those that the archive knows.
#[test]
fn the_archive_knows_the_codes_of_the_enums_alone() {
    macro_rules! codes {
        ($name:ident) => {
            $name::ALL.iter().map(|v| v.code()).collect::<Vec<u32>>()
        };
    }
    let settings_words = [
        (48, codes!(CompareFunc)),
        (60, codes!(CompareFunc)),
        (72, codes!(BlendFactor)),
        (76, codes!(BlendFactor)),
        (80, [vec![0], codes!(Face)].concat()),
        (84, codes!(FrontFace)),
        (108, codes!(FogMode)),
    ];
    let (environments, min, mag, wrap) = (codes!(Environment), codes!(MinFilter), codes!(Filter), codes!(Wrap));
    let mut settings = Settings::default().to_bytes();
    let mut stage = Stage::new(0, Environment::Modulate).to_bytes();
    let mut texture = Texture::new();
    let known: Vec<u32> = values().into_iter().map(|(_, code)| code).collect();
    for code in (0..0x1_0000).chain((16..32).flat_map(|bit| known.iter().map(move |code| code | 1 << bit))) {
        for (at, codes) in &settings_words {
            let was = settings;
            settings[*at..at + 4].copy_from_slice(&code.to_le_bytes());
            assert_eq!(is_call(&settings, &[]), codes.contains(&code), "settings at {at}: {code:x}");
            settings = was;
        }
        stage[4..8].copy_from_slice(&code.to_le_bytes());
        assert_eq!(is_call(&settings, &stage), environments.contains(&code), "environment {code:x}");
        assert_eq!(CompareFunc::from_code(code).is_ok(), settings_words[0].1.contains(&code), "{code:x}");
        assert_eq!(BlendFactor::from_code(code).is_ok(), settings_words[2].1.contains(&code), "{code:x}");
        for ((_, pname), codes) in texture::PARAMETERS.iter().zip([&mag, &min, &wrap, &wrap]) {
            assert_eq!(texture.set_parameter(*pname, code).is_ok(), codes.contains(&code), "{pname:x}: {code:x}");
        }
        let format = FORMATS.iter().any(|(_, format)| format.0 == code);
        assert_eq!(bytes_per_texel(Format(code), TexelType::UNSIGNED_BYTE).is_some(), format, "format {code:x}");
        let ty = TYPES.iter().any(|(_, ty)| ty.0 == code);
        assert_eq!(bytes_per_texel(Format::RGBA, TexelType(code)).is_some(), ty, "type {code:x}");
        let compressed = COMPRESSED.iter().any(|(_, format)| format.0 == code);
        assert_eq!(compressed_image_size(CompressedFormat(code), 4, 4).is_ok(), compressed, "compressed format {code:x}");
    }
}

/// The fields of the record that a definition is, each with its value, in their order.
fn fields(text: &'static str, definition: &str) -> Vec<(&'static str, &'static str)> {
    let (_, body) = text.split_once(&format!("\n{definition} =")).expect(definition);
    let body = body.split("\n\n").next().unwrap();
    body.lines().filter_map(|line| line.trim().strip_suffix(';')?.split_once(" = ")).collect()
}

/// The words that a value of a definition takes in a layout.
fn words(field: &str, value: &str) -> Vec<u32> {
    if let Some(record) = value.strip_prefix("record {") {
        let numbers = record.trim_end_matches('}').split(';').map(|number| number.split_once(" = ").unwrap());
        return numbers.flat_map(|(name, number)| words(name, number.trim())).collect();
    }
    match (field, value) {
        ("scissor", "None") => vec![0; 5],
        ("cull", "None") => vec![0],
        (_, "black") => vec![0; 4],
        (_, "pos 0" | "zero32" | "false") => vec![0],
        (_, "true") => vec![1],
        (_, "one32") => vec![1.0f32.to_bits()],
        (_, list) if list.ends_with("∷ []") => {
            list.split(" ∷ ").filter(|number| *number != "[]").flat_map(|number| words(field, number)).collect()
        }
        (_, variant) => vec![consts()[upper(variant.rsplit('.').next().unwrap()).as_str()]],
    }
}

fn layout(text: &'static str, definition: &str) -> Vec<u8> {
    fields(text, definition).into_iter().flat_map(|(field, value)| words(field, value)).flat_map(u32::to_le_bytes).collect()
}

/// `new_vertex` of crate vertices and `default_state` of crate settings are the Rust's `Vertex::default` and `PipelineState::default`.
#[test]
fn defaults_are_those_of_the_definitions() {
    assert_eq!(layout(VERTEX, "new_vertex"), Vertex::default().to_bytes());
    assert_eq!(layout(SETTINGS, "default_state"), Settings::default().to_bytes());
    assert_eq!(Texture::default(), Texture::new());
    assert_eq!(Rect::default(), Rect::new(0, 0, 0, 0));
    assert_eq!(Gradients::default(), Gradients { dsdx: 0.0, dtdx: 0.0, dsdy: 0.0, dtdy: 0.0 });
}

#[test]
fn a_textured_quad_of_default_vertices_shows_its_texel() {
    let (mut target, mut store, mut texture) = (Target::new(4, 4).unwrap(), Store::new(4), Texture::new());
    texture.define_level(&mut store, 0, 1, 1, 0, &[200, 100, 50, 255]).unwrap();
    let settings = Settings { viewport: Rect::new(0, 0, 4, 4), ..Settings::default() };
    let stage = Stage::new(0, Environment::Modulate);
    let corner = |x: f32, y: f32| {
        let mut vertex = Vertex::default();
        vertex.position[..2].copy_from_slice(&[x, y]);
        vertex.texcoords[0] = [(x + 1.0) / 2.0, (y + 1.0) / 2.0];
        vertex
    };
    let [a, b, c, d] = [corner(-1.0, -1.0), corner(1.0, -1.0), corner(1.0, 1.0), corner(-1.0, 1.0)];
    for triangle in [[a, b, d], [b, c, d]] {
        assert_eq!(target.draw_triangle(&store, [&texture; 4], &settings, &[stage], &triangle), Ok(10));
    }
    assert_eq!(target.colors(), [200, 100, 50, 255].repeat(16));
}
