//! Layouts and numbers, held to include/tilefringe.h and docs/INTERFACE.md.
use crate::*;

const HEADER: &str = include_str!("../../include/tilefringe.h");
const INTERFACE: &str = include_str!("../../docs/INTERFACE.md");

fn word(bytes: &[u8], at: usize) -> u32 {
    u32::from_le_bytes(bytes[at..at + 4].try_into().unwrap())
}

fn float(bytes: &[u8], at: usize) -> f32 {
    f32::from_bits(word(bytes, at))
}

#[test]
fn sizes_are_those_of_the_documents() {
    assert!(HEADER.contains(&format!("#define TF_TEXTURE_RECORD {}", Texture::SIZE)));
    assert!(HEADER.contains(&format!("the records of the units 0 to 3, {} bytes", 4 * Texture::SIZE)));
    assert!(HEADER.contains(&format!("settings: {} bytes; stages: {} bytes each", Settings::SIZE, Stage::SIZE)));
    assert!(HEADER.contains(&format!("vertices: {} bytes", 3 * Vertex::SIZE)));
    assert!(INTERFACE.contains(&format!("three of {} bytes, {} bytes", Vertex::SIZE, 3 * Vertex::SIZE)));
}

#[test]
fn refusals_are_the_headers() {
    let numbers: Vec<u32> = HEADER
        .lines()
        .filter_map(|line| line.strip_prefix(" *  "))
        .filter_map(|line| line.split_whitespace().next()?.parse().ok())
        .collect();
    let mine: Vec<u32> = [0].into_iter().chain(Refusal::ALL.map(Refusal::number)).collect();
    assert_eq!(numbers, mine);
    for refusal in Refusal::ALL {
        assert_eq!(Refusal::from_number(refusal.number()), Some(refusal));
        assert_eq!(refusal.to_string(), format!("refused ({}): {}", refusal.number(), refusal.meaning()));
    }
    assert_eq!(Refusal::from_number(0), None);
    assert_eq!(Refusal::from_number(17), None);
}

#[test]
fn every_function_of_the_header_is_bound() {
    let bound = include_str!("ffi.rs");
    let calls = HEADER.lines().filter(|line| line.starts_with("uint") || line.starts_with("size_t"));
    let names: Vec<&str> = calls.map(|line| line.split(['(', ' ']).nth(1).unwrap()).collect();
    assert_eq!(names.len(), 15);
    for name in names {
        assert!(bound.contains(&format!(" fn {name}(")), "{name}");
    }
}

#[test]
fn settings_lie_at_their_offsets() {
    let settings = Settings {
        viewport: Rect::new(-1, -2, 3, 4),
        depth_range: [0.25, 0.75],
        scissor: Some(Rect::new(-5, -6, 7, 8)),
        depth_test: true,
        depth_func: CompareFunc::Equal,
        depth_write: false,
        alpha_test: true,
        alpha_func: CompareFunc::GreaterOrEqual,
        alpha_ref: 0.5,
        blend: true,
        blend_src: BlendFactor::SrcAlpha,
        blend_dst: BlendFactor::OneMinusSrcAlpha,
        cull: Some(Face::Back),
        front_face: FrontFace::Clockwise,
        color_mask: [true, false, true, false],
        fog: true,
        fog_mode: FogMode::Linear,
        fog_color: [1.0, 2.0, 3.0, 4.0],
        fog_start: 5.0,
        fog_end: 6.0,
        fog_density: 7.0,
        smooth_shading: true,
    };
    let bytes = settings.to_bytes();
    for (at, n) in [(0, -1), (4, -2), (8, 3), (12, 4), (28, -5), (32, -6), (36, 7), (40, 8)] {
        assert_eq!(word(&bytes, at) as i32, n, "{at}");
    }
    let floats = [(16, 0.25), (20, 0.75), (64, 0.5), (112, 1.0), (116, 2.0), (120, 3.0), (124, 4.0), (128, 5.0), (132, 6.0), (136, 7.0)];
    for (at, x) in floats {
        assert_eq!(float(&bytes, at), x, "{at}");
    }
    for (at, on) in [(24, 1), (44, 1), (52, 0), (56, 1), (68, 1), (88, 1), (92, 0), (96, 1), (100, 0), (104, 1), (140, 1)] {
        assert_eq!(word(&bytes, at), on, "{at}");
    }
    for (at, code) in [(48, 0x0202), (60, 0x0206), (72, 0x0302), (76, 0x0303), (80, 0x0405), (84, 0x0900), (108, 0x2601)] {
        assert_eq!(word(&bytes, at), code, "{at}");
    }
    let plain = Settings::default().to_bytes();
    assert_eq!((word(&plain, 24), word(&plain, 80)), (0, 0));
}

#[test]
fn stages_lie_at_their_offsets() {
    let bytes = Stage { unit: 2, environment: Environment::Blend, color: [1.0, 2.0, 3.0, 4.0] }.to_bytes();
    assert_eq!((word(&bytes, 0), word(&bytes, 4)), (2, 0x0BE2));
    for (i, at) in (8..24).step_by(4).enumerate() {
        assert_eq!(float(&bytes, at), i as f32 + 1.0);
    }
}

#[test]
fn vertices_lie_at_their_offsets() {
    let vertex = Vertex {
        position: [0.0, 1.0, 2.0, 3.0],
        color: [4.0, 5.0, 6.0, 7.0],
        texcoords: [[8.0, 9.0], [10.0, 11.0], [12.0, 13.0], [14.0, 15.0]],
        fog_depth: 16.0,
    };
    let bytes = vertex.to_bytes();
    for k in 0..17 {
        assert_eq!(float(&bytes, 4 * k), k as f32);
    }
}

#[test]
fn records_lie_at_their_offsets() {
    let mut store = Store::new(1_000);
    let mut texture = Texture::new();
    assert_eq!((texture.top_level(), texture.level(0), texture.level(1)), (0, Some(Level { width: 0, height: 0, place: 0 }), None));
    let (min, mag) = (texture.min_filter(), texture.mag_filter());
    assert_eq!((min, mag), (Some(MinFilter::NearestMipmapLinear), Some(Filter::Linear)));
    for (k, (width, height, place)) in [(8, 4, 100), (4, 2, 300), (2, 1, 400)].into_iter().enumerate() {
        texture.define_level(&mut store, k as u32, width, height, place, &vec![k as u8 + 1; (4 * width * height) as usize]).unwrap();
        assert_eq!(texture.level(k), Some(Level { width, height, place: place as u64 }));
        let bytes = texture.as_bytes();
        assert_eq!((word(bytes, 20 * k + 4), word(bytes, 20 * k + 8)), (width, height));
        assert_eq!((word(bytes, 20 * k + 12), word(bytes, 20 * k + 16)), (place as u32, 0));
        assert_eq!(store.bytes()[place], k as u8 + 1);
    }
    assert_eq!(texture.top_level(), 2);
    texture.set_min_filter(MinFilter::LinearMipmapNearest).unwrap();
    texture.set_mag_filter(Filter::Nearest).unwrap();
    texture.set_wrap_s(Wrap::ClampToEdge).unwrap();
    let bytes = texture.as_bytes();
    assert_eq!([228, 232, 236, 240].map(|at| word(bytes, at)), [0x2701, 0x2600, 0x812F, 0x2901]);
    assert_eq!((texture.wrap_s(), texture.wrap_t()), (Some(Wrap::ClampToEdge), Some(Wrap::Repeat)));
    assert_eq!(Texture::from_bytes(*bytes), texture);
}

#[test]
fn each_operation_is_refused_by_its_numbers() {
    let (mut target, mut store, mut texture) = (Target::new(4, 4).unwrap(), Store::new(64), Texture::new());
    let far = Some(Rect::new(8_193, 0, 1, 1));
    assert_eq!(target.clear_color([1; 4], far), Err(Refusal::Scissor));
    assert_eq!(target.clear_depth(1.0, far), Err(Refusal::Scissor));
    assert_eq!(target.clear_depth(f32::INFINITY, None), Err(Refusal::Float));
    assert_eq!(texture.define_level(&mut store, 11, 1, 1, 0, &[0; 4]), Err(Refusal::Image));
    assert_eq!(texture.define_level(&mut store, 0, 1, 1, 0, &[0; 3]), Err(Refusal::Bytes));
    assert_eq!(texture.define_level(&mut store, 0, 1, 1, 61, &[0; 4]), Err(Refusal::Place));
    assert_eq!(texture.patch_level(&mut store, 1, [0, 0, 0, 0], &[]), Err(Refusal::Level));
    assert_eq!(texture.patch_level(&mut store, 0, [0, 0, 1, 1], &[0; 4]), Err(Refusal::Rectangle));
    assert_eq!(texture.set_parameter(0, 0), Err(Refusal::Code));
    let square = decode_to_rgba_into(&[0; 16], 2, 2, Format::RGBA, TexelType::UNSIGNED_BYTE, &mut [0; 15]);
    assert_eq!(square, Err(Refusal::Output));
    assert_eq!(decode_to_rgba(&[], 1_025, 1, Format::RGBA, TexelType::UNSIGNED_BYTE), Err(Refusal::Image));
    assert_eq!(decode_to_rgba(&[], u32::MAX, u32::MAX, Format(1), TexelType(2)), Err(Refusal::Format));
    assert_eq!(decode_compressed_to_rgba(&[0; 7], 4, 4, CompressedFormat::ATC_RGB), Err(Refusal::Bytes));
    assert_eq!(target.colors(), &[0; 64]);

    let draw = |target: &mut Target, texture: &Texture, settings: Settings, stages: &[Stage], vertex: Vertex| {
        target.draw_triangle(&store, [texture; 4], &settings, stages, &[vertex; 3])
    };
    let (plain, vertex) = (Settings::default(), Vertex::default());
    let stage = Stage::new(0, Environment::Modulate);
    let mut wrong = *texture.as_bytes();
    wrong[220] = 1;
    let wrong = Texture::from_bytes(wrong);
    assert_eq!(wrong.sample(&store, 0.0, 0.0, Gradients::default()), Err(Refusal::Record));
    assert_eq!(texture.sample(&store, 0.0, 0.0, Gradients::default()), Ok([255; 4]));
    let cases: [(Settings, &[Stage], Refusal); 7] = [
        (Settings { scissor: far, ..plain }, &[], Refusal::Scissor),
        (Settings { viewport: Rect::new(0, 0, 4_097, 1), ..plain }, &[], Refusal::Viewport),
        (Settings { alpha_ref: f32::NAN, ..plain }, &[], Refusal::Float),
        (Settings { fog: true, ..plain }, &[], Refusal::Fog),
        (plain, &[stage; 5], Refusal::Stage),
        (plain, &[Stage::new(4, Environment::Add)], Refusal::Stage),
        (plain, &[stage], Refusal::Record),
    ];
    for (settings, stages, refusal) in cases {
        assert_eq!(draw(&mut target, &wrong, settings, stages, vertex), Err(refusal));
    }
    let far = Vertex { fog_depth: 2e6, ..vertex };
    assert_eq!(draw(&mut target, &texture, plain, &[stage], far), Err(Refusal::Vertex));
    assert_eq!(draw(&mut target, &texture, plain, &[stage], vertex), Ok(0));
}

#[test]
fn a_record_with_an_unknown_code_is_refused_first() {
    let (mut target, mut store) = (Target::new(4, 4).unwrap(), Store::new(64));
    for at in [228, 232, 236, 240] {
        let mut record = *Texture::new().as_bytes();
        record[at + 3] = 1;
        let mut texture = Texture::from_bytes(record);
        assert_eq!(texture.define_level(&mut store, 11, 1, 1, 0, &[]), Err(Refusal::Layout));
        assert_eq!(texture.patch_level(&mut store, 11, [0; 4], &[]), Err(Refusal::Layout));
        assert_eq!(texture.set_parameter(0, 0), Err(Refusal::Layout));
        assert_eq!(texture.set_min_filter(MinFilter::Nearest), Err(Refusal::Layout));
        assert_eq!(texture.sample(&store, 0.0, 0.0, Gradients::default()), Err(Refusal::Layout));
        assert_eq!(texture, Texture::from_bytes(record));
        let (far, none) = (Settings { scissor: Some(Rect::new(8_193, 0, 1, 1)), ..Settings::default() }, Texture::new());
        for unit in 0..4 {
            let units = std::array::from_fn(|k| if k == unit { &texture } else { &none });
            let mut draw = |stages: &[Stage]| target.draw_triangle(&store, units, &far, stages, &[Vertex::default(); 3]);
            // What no stage names is not looked at: the scissor is refused.
            assert_eq!(draw(&[]), Err(Refusal::Scissor));
            for named in 0..4 {
                let stage = Stage::new(named as u32, Environment::Modulate);
                assert_eq!(draw(&[stage]), Err(if named == unit { Refusal::Layout } else { Refusal::Scissor }));
            }
        }
    }
}

#[test]
fn the_pairs_of_document_01() {
    let settings = Settings { viewport: Rect::new(0, 0, 2, 2), ..Settings::default() };
    let [a, b, c, d] =
        [[-1.0, -1.0], [1.0, -1.0], [1.0, 1.0], [-1.0, 1.0]].map(|[x, y]| Vertex { position: [x, y, 0.0, 1.0], ..Vertex::default() });
    let (store, none) = (Store::new(0), Texture::new());
    for (depth_test, second) in [(false, 3), (true, 1)] {
        let mut target = Target::new(2, 2).unwrap();
        target.clear_depth(1.0, None).unwrap();
        let settings = Settings { depth_test, ..settings };
        assert_eq!(target.draw_triangle(&store, [&none; 4], &settings, &[], &[a, b, d]), Ok(3));
        assert_eq!(target.draw_triangle(&store, [&none; 4], &settings, &[], &[b, c, d]), Ok(second));
        assert_eq!(target.depths(), &[0.5; 4]);
    }
}

#[test]
fn export_stops_where_it_no_longer_fits() {
    let mut target = Target::new(2, 1).unwrap();
    target.clear_color([255; 4], None).unwrap();
    let mut out = [7; 3];
    target.to_rgb565_into(&mut out).unwrap();
    assert_eq!(out, [255, 255, 7]);
}
