//! The forty guests. Each keeps to what document 01 asks of guests that share a frame: scissor boxes within its window, textures of its own,
//! and bytes of the store of its own.
use crate::art;
use crate::machine::{Call, Random, GUESTS, HEIGHT, REGION};
use crate::pen::{circle, project, Color, Pen};
use tilefringe::{
    decode_compressed_to_rgba, decode_to_rgba, BlendFactor, CompareFunc, CompressedFormat, Environment, Filter, FogMode, Format, MinFilter,
    Rect, Settings, Stage, TexelType, Vertex, Wrap,
};

/// Windows of 100 by 96, eight a row.
const SIDES: [i32; 2] = [100, 96];

/// A guest's window; with `overlap` guest 1's lies over forty columns of guest 0's.
pub fn window(guest: usize, overlap: bool) -> Rect {
    let [width, height] = SIDES;
    let (column, row) = (guest as i32 % 8, guest as i32 / 8);
    let shift = if overlap && guest == 1 { 40 } else { 0 };
    Rect::new(width * column - shift, HEIGHT as i32 - height * (row + 1), width, height)
}

#[derive(Clone, Copy)]
enum Kind {
    Pump,
    Kiln,
    Lettering,
    Gauges,
    Overlay,
    Refused,
    Tanks,
    Trend,
    Solids,
    Board,
    Picture,
    Flare,
}

const KINDS: [Kind; GUESTS] = {
    use Kind::*;
    [
        Pump, Kiln, Lettering, Gauges, Overlay, Refused, Tanks, Trend, //
        Solids, Board, Pump, Kiln, Lettering, Gauges, Overlay, Picture, //
        Trend, Solids, Board, Pump, Kiln, Lettering, Gauges, Overlay, //
        Flare, Trend, Solids, Board, Pump, Kiln, Lettering, Gauges, //
        Overlay, Tanks, Trend, Solids, Board, Gauges, Kiln, Pump,
    ]
};

/// The calls of a guest, in its order.
pub fn calls(guest: usize, overlap: bool) -> Vec<Call> {
    let mut pen = Pen::new(guest, window(guest, overlap));
    let random = &mut Random(guest as u64);
    match KINDS[guest] {
        Kind::Pump => pump(&mut pen, random),
        Kind::Kiln => kiln(&mut pen, random),
        Kind::Lettering => lettering(&mut pen, guest, random),
        Kind::Gauges => gauges(&mut pen, random),
        Kind::Overlay => overlay(&mut pen, random),
        Kind::Refused => refused(&mut pen),
        Kind::Tanks => tanks(&mut pen, random),
        Kind::Trend => trend(&mut pen, random),
        Kind::Solids => solids(&mut pen, random),
        Kind::Board => board(&mut pen, random),
        Kind::Picture => picture(&mut pen, random),
        Kind::Flare => flare(&mut pen, random),
    }
    pen.calls
}

const EDGE: Color = [52, 57, 64, 255];
const BACK: Color = [18, 21, 26, 255];
const BAR: Color = [32, 44, 58, 255];
const INK: Color = [222, 228, 232, 255];
const DIM: Color = [128, 138, 148, 255];
const GREEN: Color = [66, 190, 101, 255];
const AMBER: Color = [241, 176, 52, 255];
const RED: Color = [218, 60, 54, 255];
const BLUE: Color = [64, 132, 214, 255];

/// Clears the window and letters its title.
fn open(pen: &mut Pen, title: &str) {
    pen.clear(EDGE);
    pen.clear_box(1, 1, 98, 94, BACK);
    pen.clear_box(1, 1, 98, 11, BAR);
    pen.text(5, 3, 1, INK, title);
}

/// What a tile of the pump panel stands for; its colour follows by `rule`.
#[derive(Clone, Copy)]
pub enum Tile {
    Edge,
    Floor,
    Wall,
    Water,
    Pipe,
    Running,
    Stopped,
    Tripped,
}

/// The pump panel's colours: one for each thing shown, and no other.
pub fn rule(tile: Tile) -> Color {
    match tile {
        Tile::Edge => EDGE,
        Tile::Floor => [26, 30, 36, 255],
        Tile::Wall => [110, 118, 128, 255],
        Tile::Water => BLUE,
        Tile::Pipe => [168, 176, 184, 255],
        Tile::Running => GREEN,
        Tile::Stopped => [84, 92, 100, 255],
        Tile::Tripped => RED,
    }
}

/// Flat tiles: two tanks, the pipe between them, a pump, a valve, and a row of lamps.
fn pump(pen: &mut Pen, random: &mut Random) {
    pen.clear(rule(Tile::Edge));
    pen.tile(1, 1, 98, 94, rule(Tile::Floor));
    for (x, level) in [(8, 14 + random.below(24) as i32), (70, 8 + random.below(28) as i32)] {
        pen.tile(x, 10, 22, 48, rule(Tile::Wall));
        pen.tile(x + 2, 10, 18, 46, rule(Tile::Floor));
        pen.tile(x + 2, 56 - level, 18, level, rule(Tile::Water));
    }
    // From the first tank's foot through the pump, up and over into the second.
    pen.tile(18, 58, 4, 12, rule(Tile::Pipe));
    pen.tile(18, 66, 42, 4, rule(Tile::Pipe));
    pen.tile(56, 14, 4, 56, rule(Tile::Pipe));
    pen.tile(56, 14, 14, 4, rule(Tile::Pipe));
    let state = [Tile::Running, Tile::Running, Tile::Stopped, Tile::Tripped][random.below(4) as usize];
    pen.disc([39.0, 68.0], 10.0, rule(Tile::Wall));
    pen.disc([39.0, 68.0], 8.0, rule(state));
    pen.triangle([[35.0, 63.0], [45.0, 68.0], [35.0, 73.0]], rule(Tile::Floor));
    // The valve: open where the pump runs.
    let valve = if matches!(state, Tile::Running) { Tile::Running } else { Tile::Stopped };
    pen.triangle([[51.0, 34.0], [65.0, 34.0], [58.0, 41.0]], rule(valve));
    pen.triangle([[51.0, 48.0], [58.0, 41.0], [65.0, 48.0]], rule(valve));
    for i in 0..8 {
        let lamp = match random.below(6) {
            0 => Tile::Tripped,
            1 | 2 => Tile::Stopped,
            _ => Tile::Running,
        };
        pen.tile(8 + 11 * i, 82, 7, 7, rule(lamp));
    }
}

/// Bricks: 64 by 64, rows of eight with the joints shifted in every other row.
fn bricks(random: &mut Random) -> Vec<u8> {
    let shades: Vec<u8> = (0..32).map(|_| random.below(44) as u8).collect();
    let texel = |i: usize| {
        let (x, y) = (i % 64, i / 64);
        let row = y / 8;
        let along = (x + 8 * (row % 2)) % 64;
        if y % 8 == 7 || along % 16 == 15 {
            return [196, 186, 170, 255];
        }
        let shade = shades[4 * row + along / 16];
        [172 + shade, 106 + shade / 2, 76 + shade / 3, 255]
    };
    (0..64 * 64).flat_map(texel).collect()
}

/// The light of the burners along the kiln: 32 by 32, bright spots in the middle, brighter towards the far end.
fn glow() -> Vec<u8> {
    let texel = |i: usize| {
        let (x, y) = ((i % 32) as f32 - 15.5, (i / 32) as f32);
        let near = (y % 8.0 - 3.5) / 4.0;
        let spot = (1.0 - (x / 16.0) * (x / 16.0) - near * near).max(0.0);
        let light = (0.58 + 0.34 * spot + 0.2 * y / 31.0).min(1.0);
        [(255.0 * light) as u8, (240.0 * light * light) as u8, (215.0 * light * light) as u8, 255]
    };
    (0..32 * 32).flat_map(texel).collect()
}

/// A look into the kiln. Its walls begin behind the eye, so they are clipped; they lie in fog; bricks are mipmapped, and the light on
/// them is a second texture.
fn kiln(pen: &mut Pen, random: &mut Random) {
    pen.clear(EDGE);
    pen.clear_box(1, 1, 98, 94, [240, 128, 48, 255]);
    pen.define_chain(0, 64, bricks(random));
    pen.filters(0, MinFilter::LinearMipmapLinear, Filter::Linear);
    pen.define(1, 0, 32, 32, glow());
    pen.filters(1, MinFilter::Linear, Filter::Linear);
    pen.wraps(1, Wrap::ClampToEdge, Wrap::ClampToEdge);

    let inner = pen.boxed(1, 1, 98, 94);
    let foggy = Settings {
        viewport: inner,
        scissor: Some(inner),
        depth_test: true,
        fog: true,
        fog_mode: FogMode::Exp2,
        fog_color: [0.98, 0.56, 0.20, 1.0],
        fog_start: 1.5,
        fog_end: 11.0,
        fog_density: 0.2,
        ..Settings::default()
    };
    let both = [Stage::new(0, Environment::Modulate), Stage::new(1, Environment::Modulate)];
    // A corner of the scene, the coordinates of both units, and its fog depth.
    let corner = |at: [f32; 3], bricks: [f32; 2], light: [f32; 2], shade: f32| Vertex {
        position: project(inner, at, 0.25, 16.0),
        color: [shade, shade, shade, 1.0],
        texcoords: [bricks, light, [0.0; 2], [0.0; 2]],
        fog_depth: -at[2],
    };
    let (left, right, floor, crown, behind, end) = (-1.3, 1.3, -0.9, 1.1, 1.0, -14.0);
    let light = |z: f32| (behind - z) / (behind - end);
    let side = |pen: &mut Pen, settings: Settings, [from, to]: [[f32; 2]; 2], shade: f32| {
        let wide = ((to[0] - from[0]).abs() + (to[1] - from[1]).abs()) / 2.0;
        let at = |[x, y]: [f32; 2], z: f32, across: f32| corner([x, y, z], [-z / 2.0, across * wide], [across, light(z)], shade);
        let [a, b, c, d] = [at(from, behind, 0.0), at(to, behind, 1.0), at(to, end, 1.0), at(from, end, 0.0)];
        pen.draw(settings, &both, [a, b, c]);
        pen.draw(settings, &both, [a, c, d]);
    };
    // Exponential fog is refused by 7; the front end then goes on with linear fog.
    side(pen, foggy, [[left, floor], [right, floor]], 0.7);
    let foggy = Settings { fog_mode: FogMode::Linear, ..foggy };
    side(pen, foggy, [[left, floor], [right, floor]], 0.75);
    side(pen, foggy, [[left, floor], [left, 0.5]], 1.0);
    side(pen, foggy, [[right, floor], [right, 0.5]], 1.0);
    side(pen, foggy, [[left, 0.5], [-0.6, crown]], 0.9);
    side(pen, foggy, [[right, 0.5], [0.6, crown]], 0.9);
    side(pen, foggy, [[-0.6, crown], [0.6, crown]], 0.8);

    // Two cars with ware: tops and the faces that the eye sees.
    let ware = [1.0, 0.95, 0.86];
    for (near, height) in [(-2.4f32, random.below(3) as f32 / 10.0), (-4.6, 0.35)] {
        let (far, top) = (near - 1.6, floor + 0.5 + height);
        let faces = [
            ([[-0.55, floor, near], [0.55, floor, near], [0.55, top, near], [-0.55, top, near]], 0.8),
            ([[-0.55, top, near], [0.55, top, near], [0.55, top, far], [-0.55, top, far]], 1.0),
        ];
        for (corners, shade) in faces {
            let vertices = corners.map(|at| {
                let [r, g, b] = ware.map(|c: f32| c * shade);
                Vertex { color: [r, g, b, 1.0], ..corner(at, [0.0; 2], [0.5, light(at[2])], 1.0) }
            });
            let [a, b, c, d] = vertices;
            let stage = [Stage::new(1, Environment::Modulate)];
            pen.draw(foggy, &stage, [a, b, c]);
            pen.draw(foggy, &stage, [a, c, d]);
        }
    }
    pen.glass(1, 1, 98, 12, [10, 8, 8, 150]);
    pen.text(5, 4, 1, INK, "KILN");
    let degrees = 1_180 + random.below(90);
    pen.text(59, 4, 1, AMBER, &format!("{degrees} C"));
}

/// Lettering in two sizes from one small texture.
fn lettering(pen: &mut Pen, guest: usize, random: &mut Random) {
    open(pen, "STATION");
    pen.text(83, 3, 1, DIM, &format!("{guest:02}"));
    pen.text(8, 18, 2, AMBER, &format!("{:03}.{} T", 100 + random.below(800), random.below(10)));
    let words = ["INLET", "MIXER", "BELT", "DRYER", "SILO", "PRESS"];
    let first = random.below(6) as usize;
    for i in 0..5 {
        let y = 40 + 11 * i as i32;
        pen.text(8, y, 1, DIM, words[(first + i) % 6]);
        match random.below(4) {
            0 => pen.text(62, y, 1, RED, "TRIP"),
            1 => pen.text(62, y, 1, DIM, "OFF"),
            _ => pen.text(62, y, 1, GREEN, "OK"),
        }
    }
}

/// Two dials with zones and needles.
fn gauges(pen: &mut Pen, random: &mut Random) {
    open(pen, "PRESSURE");
    for (x, name) in [(26.0f32, "A"), (74.0, "B")] {
        let centre = [x, 46.0];
        let share = random.below(100) as f32 / 100.0;
        pen.disc(centre, 21.0, [40, 46, 54, 255]);
        for (from, to, color) in [(0.375, 0.8, GREEN), (0.8, 0.975, AMBER), (0.975, 1.125, RED)] {
            pen.ring(centre, 16.0, 20.0, from, to, color);
        }
        let turn = 0.375 + 0.75 * share;
        let ((cos, sin), (across, down)) = (circle(turn), circle(turn + 0.25));
        let tip = [centre[0] + 17.0 * cos, centre[1] + 17.0 * sin];
        let foot = [2.0f32, -2.0].map(|wide| [centre[0] + wide * across, centre[1] + wide * down]);
        pen.triangle([tip, foot[0], foot[1]], INK);
        pen.disc(centre, 3.0, DIM);
        pen.text(x as i32 - 20, 74, 1, DIM, name);
        pen.text(x as i32 - 8, 74, 1, INK, &format!("{:.1}", share * 16.0));
    }
    let wide = 10 + random.below(80) as i32;
    pen.tile(5, 86, 90, 5, [40, 46, 54, 255]);
    pen.tile(5, 86, wide, 5, if wide > 70 { AMBER } else { BLUE });
}

/// A chart under an alarm that is blended over it, and a band that adds light.
fn overlay(pen: &mut Pen, random: &mut Random) {
    open(pen, "ALARMS");
    for i in 0..11 {
        let height = 12 + random.below(58) as i32;
        let color = if height > 56 { RED } else { BLUE };
        pen.tile(6 + 8 * i, 90 - height, 6, height, color);
    }
    pen.glass(2, 30, 96, 1, [255, 255, 255, 120]);
    pen.glass(2, 60, 96, 1, [255, 255, 255, 120]);
    pen.glass(10, 34, 80, 36, [8, 10, 14, 190]);
    pen.glass(10, 34, 80, 11, [218, 60, 54, 170]);
    pen.text(14, 36, 1, INK, "HIGH LEVEL");
    pen.text(14, 50, 1, INK, &format!("TANK {}", 1 + random.below(9)));
    pen.text(14, 60, 1, AMBER, "ACK?");
    // Light is added to the corner, a triangle smooth from bright to nothing.
    let bright = Settings { blend: true, blend_src: BlendFactor::SrcAlpha, blend_dst: BlendFactor::One, ..pen.settings() };
    let vertices = [([99.0, 95.0], [255, 180, 60, 160]), ([99.0, 60.0], [255, 180, 60, 0]), ([50.0, 95.0], [255, 180, 60, 0])]
        .map(|(at, color)| pen.corner(at, color));
    let inner = pen.boxed(1, 1, 98, 94);
    pen.draw(Settings { scissor: Some(inner), color_mask: [true, true, true, false], ..bright }, &[], vertices);
}

/// Every call is refused, so the window stays as it began.
fn refused(pen: &mut Pen) {
    let window = Some(pen.window);
    let texture = pen.name(0);
    let place = pen.region();
    let far = Some(Rect { width: 8_193, ..pen.window });
    let vertex = pen.corner([50.0, 48.0], RED);
    let define = |level, width, height, place, bytes| Call::Define { texture, level, width, height, place, rgba: vec![255; bytes] };
    let settings = pen.settings();
    for (settings, stages, vertex) in [
        (Settings { scissor: far, ..settings }, vec![], vertex),
        (Settings { viewport: Rect { height: 4_097, ..pen.window }, ..settings }, vec![], vertex),
        (Settings { depth_range: [0.0, f32::NAN], ..settings }, vec![], vertex),
        (Settings { fog: true, fog_mode: FogMode::Exp, ..settings }, vec![], vertex),
        (settings, vec![Stage::new(0, Environment::Replace); 5], vertex),
        (settings, vec![Stage::new(4, Environment::Add)], vertex),
        (settings, vec![], Vertex { position: [f32::INFINITY, 0.0, 0.0, 1.0], ..vertex }),
    ] {
        pen.draw(settings, &stages, [vertex; 3]);
    }
    pen.calls.extend([
        Call::ClearColor { color: RED, scissor: far },
        Call::ClearDepth { value: f32::NEG_INFINITY, scissor: window },
        define(11, 1, 1, place, 4),
        define(0, 1_025, 1, place, 4_100),
        define(0, 2, 2, place, 15),
        define(0, 1, 1, GUESTS * REGION - 3, 4),
        Call::Patch { texture, level: 3, rect: [0, 0, 1, 1], patch: vec![0; 4] },
        Call::Patch { texture, level: 0, rect: [0, 0, 1, 1], patch: vec![0; 4] },
        Call::Set { texture, pname: 0x2801, value: 0x2704 },
    ]);
}

/// Tanks, shaded from foot to crown.
fn tanks(pen: &mut Pen, random: &mut Random) {
    open(pen, "LEVELS");
    for i in 0..4 {
        let x = 7 + 23 * i;
        let level = 8 + random.below(52) as i32;
        let (low, high) = if level > 48 { ([120, 30, 24, 255], RED) } else { ([18, 52, 110, 255], [110, 190, 240, 255]) };
        pen.tile(x, 18, 18, 62, [70, 78, 88, 255]);
        pen.tile(x + 1, 18, 16, 61, [28, 33, 40, 255]);
        pen.shaded(x + 1, 79 - level, 16, level, low, high);
        pen.glass(x + 3, 18, 3, 61, [255, 255, 255, 40]);
        pen.text(x + 3, 84, 1, DIM, &format!("{:02}", 100 * level / 61));
    }
}

/// A trend: two lines over a grid.
fn trend(pen: &mut Pen, random: &mut Random) {
    open(pen, "TREND");
    for i in 0..5 {
        pen.tile(6, 18 + 18 * i, 88, 1, [44, 51, 60, 255]);
        pen.tile(6 + 22 * i, 18, 1, 73, [44, 51, 60, 255]);
    }
    for (color, mut y) in [(BLUE, 66.0f32), (AMBER, 40.0)] {
        for i in 0..22 {
            let next = (y + random.below(17) as f32 - 8.0).clamp(20.0, 88.0);
            pen.line([6.0 + 4.0 * i as f32, y], [10.0 + 4.0 * i as f32, next], 1.6, color);
            y = next;
        }
    }
    pen.text(60, 3, 1, AMBER, "T");
    pen.text(72, 3, 1, BLUE, "P");
}

/// Two boxes that pass through each other, told apart by their depths.
fn solids(pen: &mut Pen, random: &mut Random) {
    open(pen, "ROBOT CELL");
    let inner = pen.boxed(1, 12, 98, 83);
    let settings = Settings {
        viewport: inner,
        scissor: Some(inner),
        depth_test: true,
        depth_func: CompareFunc::LessOrEqual,
        smooth_shading: false,
        ..Settings::default()
    };
    let turn = random.below(100) as f32 / 400.0;
    let bodies =
        [([0.95f32, 0.35, 0.95], turn, [AMBER, [176, 120, 28, 255]]), ([0.35, 0.95, 0.35], turn + 0.08, [BLUE, [30, 76, 140, 255]])];
    for (half, turn, [light, dark]) in bodies {
        let (cos, sin) = circle(turn);
        let at = |[x, y, z]: [f32; 3]| {
            let (x, y, z) = (x * half[0], y * half[1], z * half[2]);
            let (x, z) = (x * cos + z * sin, z * cos - x * sin);
            // Seen from a little above.
            project(inner, [1.9 * x, 1.9 * (0.94 * y - 0.34 * z), 0.34 * y + 0.94 * z - 3.0], 0.5, 8.0)
        };
        let white = [light[0] / 2 + 120, light[1] / 2 + 120, light[2] / 2 + 120, 255];
        let faces = [
            ([[-1.0, -1.0, 1.0], [1.0, -1.0, 1.0], [1.0, 1.0, 1.0], [-1.0, 1.0, 1.0]], light),
            ([[-1.0, -1.0, -1.0], [1.0, -1.0, -1.0], [1.0, 1.0, -1.0], [-1.0, 1.0, -1.0]], light),
            ([[1.0, -1.0, -1.0], [1.0, -1.0, 1.0], [1.0, 1.0, 1.0], [1.0, 1.0, -1.0]], dark),
            ([[-1.0, -1.0, -1.0], [-1.0, -1.0, 1.0], [-1.0, 1.0, 1.0], [-1.0, 1.0, -1.0]], dark),
            ([[-1.0, 1.0, -1.0], [1.0, 1.0, -1.0], [1.0, 1.0, 1.0], [-1.0, 1.0, 1.0]], white),
        ];
        for (corners, color) in faces {
            let [a, b, c, d] = corners.map(|corner| Vertex { position: at(corner), ..pen.corner([0.0; 2], color) });
            pen.draw(settings, &[], [a, b, c]);
            pen.draw(settings, &[], [a, c, d]);
        }
    }
}

/// A board of lamps whose texels are patched, on a plate from a compressed image.
fn board(pen: &mut Pen, random: &mut Random) {
    open(pen, "BOARD");
    // A DXT1 block of four greys, in diagonals.
    let block = [0x8E, 0x73, 0x08, 0x42, 0xE4, 0x39, 0x4E, 0x93];
    let plate = decode_compressed_to_rgba(&block, 4, 4, CompressedFormat::RGB_S3TC_DXT1).expect("a whole block");
    pen.define(0, 0, 4, 4, plate);
    pen.filters(0, MinFilter::Nearest, Filter::Nearest);
    pen.textured([3, 14, 94, 79], [0.0, 0.0, 94.0 / 8.0, 79.0 / 8.0], [255; 4], pen.settings());
    // Lamps of 8 by 6 texels, all off, then some patched on: 565 texels, low byte first.
    let lamp = |code: u16| decode_to_rgba(&code.to_le_bytes(), 1, 1, Format::RGB, TexelType::UNSIGNED_SHORT_5_6_5).expect("a texel");
    pen.define(0, 0, 8, 6, lamp(0x2124).repeat(48));
    for _ in 0..18 {
        let code = [0x45CC, 0xF586, 0xD9E6][random.below(3) as usize];
        let rect = [random.below(8) as u32, random.below(6) as u32, 1, 1];
        let texture = pen.name(0);
        pen.calls.push(Call::Patch { texture, level: 0, rect, patch: lamp(code) });
    }
    pen.textured([10, 20, 80, 60], [0.0, 0.0, 1.0, 1.0], [255; 4], pen.settings());
    for i in 0..9 {
        pen.clear_box(10 + 10 * i - 1, 20, 2, 60, [12, 14, 18, 255]);
    }
    for i in 0..7 {
        pen.clear_box(9, 20 + 10 * i - 1, 82, 2, [12, 14, 18, 255]);
    }
    pen.text(30, 83, 1, INK, "BUS OK");
}

/// How far from each other a picture is shown twice.
const APART: i32 = 48;

/// One DXT1 picture under both codes, drawn where its alpha is above a half: 83F0 has no holes.
fn picture(pen: &mut Pen, random: &mut Random) {
    open(pen, "TANK");
    let [width, height] = art::TANK;
    let data = art::tank(4 + random.below(20) as i32);
    pen.shaded(1, 12, 98, 83, [120, 70, 10, 255], AMBER);
    for (x, format) in [(6, CompressedFormat::RGB_S3TC_DXT1), (6 + APART, CompressedFormat::RGBA_S3TC_DXT1)] {
        let image = decode_compressed_to_rgba(&data, width, height, format).expect("whole blocks");
        pen.define(0, 0, width, height, image);
        pen.filters(0, MinFilter::Nearest, Filter::Nearest);
        pen.textured([x, 15, width as i32, height as i32], [0.0, 0.0, 1.0, 1.0], [255; 4], pen.cut_out());
        pen.text(x + 8, 83, 1, [30, 18, 4, 255], &format!("{:04X}", format.0));
    }
}

/// One picture as DXT3 and as DXT5, blended over an evening sky: the same colours, with sixteen alphas and with finer ones.
fn flare(pen: &mut Pen, random: &mut Random) {
    open(pen, "FLARE");
    let [width, height] = art::FLARE;
    let lean = random.below(5) as i32 - 2;
    pen.shaded(1, 12, 98, 83, [52, 84, 122, 255], [12, 16, 36, 255]);
    let pictures = [(CompressedFormat::RGBA_S3TC_DXT3, art::flare_dxt3(lean)), (CompressedFormat::RGBA_S3TC_DXT5, art::flare_dxt5(lean))];
    for (x, (format, data)) in [6, 6 + APART].into_iter().zip(pictures) {
        pen.tile(x + 17, 72, 6, 9, [84, 92, 100, 255]);
        let image = decode_compressed_to_rgba(&data, width, height, format).expect("whole blocks");
        pen.define(0, 0, width, height, image);
        pen.filters(0, MinFilter::Nearest, Filter::Nearest);
        pen.textured([x, 13, width as i32, height as i32], [0.0, 0.0, 1.0, 1.0], [255; 4], pen.blended());
        pen.text(x + 8, 84, 1, INK, &format!("{:04X}", format.0));
    }
}

#[cfg(test)]
mod tests {
    use super::*;
    use crate::machine::Machine;

    #[test]
    fn the_picture_has_holes_under_83f1_alone() {
        let frame = |pictures: bool| {
            let mut machine = Machine::start();
            for call in calls(15, false) {
                if pictures || !matches!(&call, Call::Draw(draw) if draw.stages.iter().any(|stage| stage.unit == 0)) {
                    machine.call(&call).unwrap();
                }
            }
            machine.target
        };
        let (shown, ground) = (frame(true), frame(false));
        let mut holes = 0;
        for row in 15..15 + 64 {
            for x in 6..6 + 40 {
                let (left, right) = (700 + x, 700 + x + APART as u32);
                let (opaque, other) = (shown.pixel(left, 96 + row), shown.pixel(right, 96 + row));
                if opaque == Some([0, 0, 0, 255]) {
                    holes += 1;
                    assert_eq!(other, ground.pixel(right, 96 + row));
                } else {
                    assert_eq!(other, opaque);
                }
            }
        }
        assert!(holes > 300);
    }

    #[test]
    fn the_flare_has_the_same_colours_under_83f2_and_83f3() {
        let [width, height] = art::FLARE;
        for lean in -2..=2 {
            let (dxt3, dxt5) = (art::flare_dxt3(lean), art::flare_dxt5(lean));
            // The same colour bytes as DXT1, which has three colours and black where endpoints do not fall.
            let colors: Vec<u8> = dxt3.chunks(16).flat_map(|block| block[8..].to_vec()).collect();
            let decode = |data, format| decode_compressed_to_rgba(data, width, height, format).unwrap();
            let dxt1 = decode(&colors, CompressedFormat::RGBA_S3TC_DXT1);
            let dxt3 = decode(&dxt3, CompressedFormat::RGBA_S3TC_DXT3);
            let dxt5 = decode(&dxt5, CompressedFormat::RGBA_S3TC_DXT5);
            let mut unlike = 0;
            for ((dxt1, dxt3), dxt5) in dxt1.chunks(4).zip(dxt3.chunks(4)).zip(dxt5.chunks(4)) {
                assert_eq!(dxt3[..3], dxt5[..3]);
                assert_eq!(dxt3[3] % 17, 0);
                assert!(dxt3[3].abs_diff(dxt5[3]) <= 24);
                unlike += u32::from(dxt1[..3] != dxt3[..3]);
            }
            assert!(unlike > 300, "{unlike}");
            let finer = dxt5.chunks(4).filter(|texel| texel[3] % 17 != 0).count();
            assert!(finer > 500, "{finer}");
        }
    }

    #[test]
    fn every_colour_of_the_pump_panel_has_a_rule() {
        let mut machine = Machine::start();
        for call in calls(0, false) {
            machine.call(&call).unwrap();
        }
        use Tile::*;
        let rules = [Edge, Floor, Wall, Water, Pipe, Running, Stopped, Tripped].map(rule);
        for row in 0..96 {
            for x in 0..100 {
                assert!(rules.contains(&machine.target.pixel(x, row).unwrap()));
            }
        }
    }

    #[test]
    fn every_call_of_the_refused_guest_is() {
        let mut machine = Machine::start();
        let calls = calls(5, false);
        let mut numbers: Vec<u32> = calls.iter().map(|call| machine.call(call).unwrap_err().number()).collect();
        assert_eq!(machine.target, Machine::start().target);
        numbers.sort();
        numbers.dedup();
        assert_eq!(numbers, [2, 3, 4, 5, 6, 7, 9, 10, 11, 12, 13, 16]);
    }

    /// The kiln's window after its calls, each changed or left out by `change`.
    fn kiln_window(change: impl Fn(&mut Call) -> bool) -> Vec<[u8; 4]> {
        let mut machine = Machine::start();
        for mut call in calls(1, false) {
            if change(&mut call) {
                let _ = machine.call(&call);
            }
        }
        (0..96 * 100).map(|i| machine.target.pixel(100 + i % 100, i / 100).unwrap()).collect()
    }

    #[test]
    fn the_kiln_shows_fog_mipmaps_and_both_textures() {
        let mut machine = Machine::start();
        let refusals: Vec<u32> = calls(1, false).iter().filter_map(|call| machine.call(call).err()).map(|r| r.number()).collect();
        assert_eq!(refusals, [7, 7]);
        let behind = |call: &Call| matches!(call, Call::Draw(draw) if draw.vertices.iter().any(|v| v.position[3] < 0.0));
        assert_eq!(calls(1, false).iter().filter(|call| behind(call)).count(), 14);

        let whole = kiln_window(|_| true);
        let without_levels = kiln_window(|call| !matches!(call, Call::Define { texture: 4, level: 1.., .. }));
        let without_light = kiln_window(|call| !matches!(call, Call::Define { texture: 5, .. }));
        let without_fog = kiln_window(|call| {
            if let Call::Draw(draw) = call {
                draw.settings.fog = false;
            }
            true
        });
        for other in [without_levels, without_light, without_fog] {
            assert!(whole.iter().zip(&other).filter(|(a, b)| a != b).count() > 500);
        }
    }

    #[test]
    fn guests_keep_to_what_is_theirs() {
        let within = |inner: Rect, outer: Rect| {
            inner.x >= outer.x
                && inner.y >= outer.y
                && inner.x + inner.width <= outer.x + outer.width
                && inner.y + inner.height <= outer.y + outer.height
        };
        for guest in 0..GUESTS {
            let (window, bytes, names) = (window(guest, false), guest * REGION..=(guest + 1) * REGION, guest * 4..guest * 4 + 4);
            let mut machine = Machine::start();
            for call in calls(guest, false) {
                if machine.call(&call).is_err() {
                    continue;
                }
                match call {
                    Call::ClearColor { scissor, .. } | Call::ClearDepth { scissor, .. } => assert!(within(scissor.unwrap(), window)),
                    Call::Define { texture, place, rgba, .. } => {
                        assert!(names.contains(&texture) && bytes.contains(&place) && bytes.contains(&(place + rgba.len())))
                    }
                    Call::Patch { texture, .. } | Call::Set { texture, .. } => assert!(names.contains(&texture)),
                    Call::Draw(draw) => {
                        assert!(within(draw.settings.scissor.unwrap(), window) && draw.units.iter().all(|name| names.contains(name)))
                    }
                }
            }
        }
    }

    #[test]
    fn windows_share_no_pixel_and_fill_the_frame() {
        let mut seen = vec![0; 800 * 480];
        for window in (0..GUESTS).map(|guest| window(guest, false)) {
            for y in window.y..window.y + window.height {
                for x in window.x..window.x + window.width {
                    seen[(800 * y + x) as usize] += 1;
                }
            }
        }
        assert!(seen.iter().all(|&n| n == 1));
    }
}
