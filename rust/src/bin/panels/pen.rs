//! A guest's front end: it turns shapes into calls. Shapes are in pixels of the window, rows from the top.
use crate::font;
use crate::machine::{Call, Draw, REGION, TEXTURES};
use tilefringe::{BlendFactor, CompareFunc, Environment, Filter, MinFilter, Rect, Settings, Stage, Vertex, Wrap};

pub type Color = [u8; 4];

/// The name of the font, of a guest's four textures.
const FONT: usize = 3;

pub struct Pen {
    pub window: Rect,
    pub calls: Vec<Call>,
    guest: usize,
    /// The first free byte of the guest's part of the store.
    free: usize,
    lettered: bool,
}

pub fn unit(color: Color) -> [f32; 4] {
    color.map(|channel| f32::from(channel) / 255.0)
}

/// Cosine and sine of a part of a turn, by their series: the same on every machine.
pub fn circle(turn: f32) -> (f32, f32) {
    let turn = f64::from(turn);
    let x = (turn - turn.floor() - 0.5) * std::f64::consts::TAU;
    let (mut cos, mut sin, mut term) = (0.0, 0.0, 1.0);
    for k in 1..=24 {
        match k % 4 {
            1 => cos += term,
            2 => sin += term,
            3 => cos -= term,
            _ => sin -= term,
        }
        term *= x / f64::from(k);
    }
    (-cos as f32, -sin as f32)
}

impl Pen {
    pub fn new(guest: usize, window: Rect) -> Pen {
        Pen { window, calls: Vec::new(), guest, free: guest * REGION, lettered: false }
    }

    /// The name of one of the guest's own textures.
    pub fn name(&self, k: usize) -> usize {
        self.guest * TEXTURES + k
    }

    /// The first byte of the guest's part of the store.
    pub fn region(&self) -> usize {
        self.guest * REGION
    }

    /// A box of the window as OpenGL counts it.
    pub fn boxed(&self, x: i32, y: i32, width: i32, height: i32) -> Rect {
        Rect::new(self.window.x + x, self.window.y + self.window.height - y - height, width, height)
    }

    /// Settings that keep to the window.
    pub fn settings(&self) -> Settings {
        Settings { viewport: self.window, scissor: Some(self.window), ..Settings::default() }
    }

    /// The same, where only what has an alpha above a half is drawn.
    pub fn cut_out(&self) -> Settings {
        Settings { alpha_test: true, alpha_func: CompareFunc::Greater, alpha_ref: 0.5, ..self.settings() }
    }

    /// The same, where what is drawn is blended over what is there, by its alpha.
    pub fn blended(&self) -> Settings {
        Settings {
            blend: true,
            blend_src: BlendFactor::SrcAlpha,
            blend_dst: BlendFactor::OneMinusSrcAlpha,
            color_mask: [true, true, true, false],
            ..self.settings()
        }
    }

    /// The whole window in one colour, and its depths 1.
    pub fn clear(&mut self, color: Color) {
        let scissor = Some(self.window);
        self.calls.push(Call::ClearColor { color, scissor });
        self.calls.push(Call::ClearDepth { value: 1.0, scissor });
    }

    pub fn clear_box(&mut self, x: i32, y: i32, width: i32, height: i32, color: Color) {
        let scissor = Some(self.boxed(x, y, width, height));
        self.calls.push(Call::ClearColor { color, scissor });
    }

    pub fn draw(&mut self, settings: Settings, stages: &[Stage], vertices: [Vertex; 3]) {
        let units = [0, 1, 2, 3].map(|k| self.name(k));
        self.calls.push(Call::Draw(Box::new(Draw { units, settings, stages: stages.to_vec(), vertices })));
    }

    /// A rectangle as one triangle of twice its sides, cut by the scissor: no edge is written twice.
    /// The corners are below, to the right and above: colour and coordinates of unit 0.
    fn tile_of(&mut self, [x, y, width, height]: [i32; 4], settings: Settings, stages: &[Stage], corners: [([f32; 4], [f32; 2]); 3]) {
        let cut = self.boxed(x, y, width, height);
        let settings = Settings { viewport: Rect { width: 2 * width, height: 2 * height, ..cut }, scissor: Some(cut), ..settings };
        let places = [[-1.0, -1.0], [1.0, -1.0], [-1.0, 1.0]];
        let vertices = [0, 1, 2].map(|i| Vertex {
            position: [places[i][0], places[i][1], 0.0, 1.0],
            color: corners[i].0,
            texcoords: [corners[i].1, [0.0; 2], [0.0; 2], [0.0; 2]],
            fog_depth: 0.0,
        });
        self.draw(settings, stages, vertices);
    }

    /// A tile of one colour.
    pub fn tile(&mut self, x: i32, y: i32, width: i32, height: i32, color: Color) {
        let settings = Settings { smooth_shading: false, ..self.settings() };
        self.tile_of([x, y, width, height], settings, &[], [(unit(color), [0.0; 2]); 3]);
    }

    /// A tile that is blended over what is there, by the colour's alpha.
    pub fn glass(&mut self, x: i32, y: i32, width: i32, height: i32, color: Color) {
        self.tile_of([x, y, width, height], self.blended(), &[], [(unit(color), [0.0; 2]); 3]);
    }

    /// A tile shaded from its lower end to its upper.
    pub fn shaded(&mut self, x: i32, y: i32, width: i32, height: i32, low: Color, high: Color) {
        let (low, high) = (unit(low), unit(high));
        let past = [0, 1, 2, 3].map(|i| low[i] + 2.0 * (high[i] - low[i]));
        self.tile_of([x, y, width, height], self.settings(), &[], [(low, [0.0; 2]), (low, [0.0; 2]), (past, [0.0; 2])]);
    }

    /// A tile of the texture of unit 0: s and t of its upper left corner and of its lower right one.
    pub fn textured(&mut self, place: [i32; 4], [s, t, s_end, t_end]: [f32; 4], color: Color, settings: Settings) {
        let stage = Stage::new(0, Environment::Modulate);
        let color = unit(color);
        let corners = [(color, [s, t_end]), (color, [2.0 * s_end - s, t_end]), (color, [s, 2.0 * t - t_end])];
        self.tile_of(place, settings, &[stage], corners);
    }

    /// Defines a texture's level from the first free byte on.
    pub fn define(&mut self, k: usize, level: u32, width: u32, height: u32, rgba: Vec<u8>) {
        let (texture, place) = (self.name(k), self.free);
        self.free += rgba.len();
        assert!(self.free <= self.region() + REGION, "the guest's part of the store is full");
        self.calls.push(Call::Define { texture, level, width, height, place, rgba });
    }

    /// Defines level 0 and every level below it, each a mean of the one before. The sides are powers of two, and equal.
    pub fn define_chain(&mut self, k: usize, side: u32, rgba: Vec<u8>) {
        let (mut level, mut side, mut image) = (0, side as usize, rgba);
        loop {
            self.define(k, level, side as u32, side as u32, image.clone());
            if side == 1 {
                break;
            }
            let half = side / 2;
            let byte = |x: usize, y: usize, c: usize| u32::from(image[4 * (y * side + x) + c]);
            let mean =
                |x: usize, y: usize, c: usize| (byte(x, y, c) + byte(x + 1, y, c) + byte(x, y + 1, c) + byte(x + 1, y + 1, c) + 2) / 4;
            image = (0..4 * half * half).map(|i| mean(2 * (i / 4 % half), 2 * (i / 4 / half), i % 4) as u8).collect();
            (level, side) = (level + 1, half);
        }
    }

    pub fn filters(&mut self, k: usize, min: MinFilter, mag: Filter) {
        let texture = self.name(k);
        self.calls.push(Call::Set { texture, pname: 0x2801, value: min.code() });
        self.calls.push(Call::Set { texture, pname: 0x2800, value: mag.code() });
    }

    pub fn wraps(&mut self, k: usize, s: Wrap, t: Wrap) {
        let texture = self.name(k);
        self.calls.push(Call::Set { texture, pname: 0x2802, value: s.code() });
        self.calls.push(Call::Set { texture, pname: 0x2803, value: t.code() });
    }

    /// Lettering: a tile a character, drawn where the font's alpha is above a half. A character is 5 by 7 dots of `size` pixels.
    pub fn text(&mut self, x: i32, y: i32, size: i32, color: Color, text: &str) {
        if !self.lettered {
            self.define(FONT, 0, font::WIDTH, font::HEIGHT, font::image());
            self.filters(FONT, MinFilter::Nearest, Filter::Nearest);
            self.lettered = true;
        }
        let settings = self.cut_out();
        let stage = Stage::new(FONT as u32, Environment::Modulate);
        for (i, character) in text.chars().enumerate().filter(|(_, c)| *c != ' ') {
            let place = [x + 6 * size * i as i32, y, 5 * size, 7 * size];
            let (column, row) = font::cell(character);
            let (s, t) = (column as f32 / font::WIDTH as f32, row as f32 / font::HEIGHT as f32);
            let (wide, high) = (5.0 / font::WIDTH as f32, 7.0 / font::HEIGHT as f32);
            let cut = self.boxed(place[0], place[1], place[2], place[3]);
            let settings =
                Settings { viewport: Rect { width: 2 * cut.width, height: 2 * cut.height, ..cut }, scissor: Some(cut), ..settings };
            let corners = [([-1.0, -1.0], [s, t + high]), ([1.0, -1.0], [s + 2.0 * wide, t + high]), ([-1.0, 1.0], [s, t - high])];
            let vertices = corners.map(|([x, y], coords)| {
                let mut texcoords = [[0.0; 2]; 4];
                texcoords[FONT] = coords;
                Vertex { position: [x, y, 0.0, 1.0], color: unit(color), texcoords, fog_depth: 0.0 }
            });
            self.draw(settings, &[stage], vertices);
        }
    }

    /// A corner in pixels of the window.
    pub fn corner(&self, [x, y]: [f32; 2], color: Color) -> Vertex {
        let (width, height) = (self.window.width as f32, self.window.height as f32);
        Vertex { position: [2.0 * x / width - 1.0, 1.0 - 2.0 * y / height, 0.0, 1.0], color: unit(color), ..Vertex::default() }
    }

    pub fn triangle(&mut self, corners: [[f32; 2]; 3], color: Color) {
        let vertices = corners.map(|corner| self.corner(corner, color));
        let settings = Settings { smooth_shading: false, ..self.settings() };
        self.draw(settings, &[], vertices);
    }

    pub fn quad(&mut self, [a, b, c, d]: [[f32; 2]; 4], color: Color) {
        self.triangle([a, b, c], color);
        self.triangle([a, c, d], color);
    }

    pub fn line(&mut self, [x, y]: [f32; 2], [x_end, y_end]: [f32; 2], thick: f32, color: Color) {
        let (dx, dy) = (x_end - x, y_end - y);
        let length = (dx * dx + dy * dy).sqrt().max(0.001);
        let (nx, ny) = (-dy / length * thick / 2.0, dx / length * thick / 2.0);
        self.quad([[x + nx, y + ny], [x_end + nx, y_end + ny], [x_end - nx, y_end - ny], [x - nx, y - ny]], color);
    }

    /// A disc of sixteen triangles.
    pub fn disc(&mut self, [x, y]: [f32; 2], radius: f32, color: Color) {
        let at = |i: i32| {
            let (cos, sin) = circle(i as f32 / 16.0);
            [x + radius * cos, y + radius * sin]
        };
        for i in 0..16 {
            self.triangle([[x, y], at(i), at(i + 1)], color);
        }
    }

    /// A part of a ring between two radii, turned clockwise from the right.
    pub fn ring(&mut self, [x, y]: [f32; 2], inner: f32, outer: f32, from: f32, to: f32, color: Color) {
        let steps = ((to - from) * 32.0).max(1.0) as i32;
        let at = |i: i32, radius: f32| {
            let (cos, sin) = circle(from + (to - from) * i as f32 / steps as f32);
            [x + radius * cos, y + radius * sin]
        };
        for i in 0..steps {
            self.quad([at(i, inner), at(i, outer), at(i + 1, outer), at(i + 1, inner)], color);
        }
    }
}

/// A point of a scene, the eye at the origin looking along -z, in clip space.
pub fn project(window: Rect, [x, y, z]: [f32; 3], near: f32, far: f32) -> [f32; 4] {
    let aspect = window.width as f32 / window.height as f32;
    [x / aspect, y, (far + near) / (near - far) * z + 2.0 * far * near / (near - far), -z]
}
