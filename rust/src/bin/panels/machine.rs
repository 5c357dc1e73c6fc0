//! The machine that guests call: one target, one texel store, and textures by name. A call is one of the six of document 01's demand 3.
use tilefringe::{Rect, Refusal, Settings, Stage, Store, Target, Texture, Vertex};

/// The frame's sides.
pub const WIDTH: u32 = 800;
pub const HEIGHT: u32 = 480;

/// The most guests.
pub const GUESTS: usize = 40;

/// Each guest has its own textures, named from 4 g on, and its own bytes of the store.
pub const TEXTURES: usize = 4;
pub const REGION: usize = 1 << 16;

/// The colour that the frame starts with.
const START: [u8; 4] = [36, 39, 44, 255];

pub struct Draw {
    pub units: [usize; 4],
    pub settings: Settings,
    pub stages: Vec<Stage>,
    pub vertices: [Vertex; 3],
}

pub enum Call {
    ClearColor { color: [u8; 4], scissor: Option<Rect> },
    ClearDepth { value: f32, scissor: Option<Rect> },
    Define { texture: usize, level: u32, width: u32, height: u32, place: usize, rgba: Vec<u8> },
    Patch { texture: usize, level: u32, rect: [u32; 4], patch: Vec<u8> },
    Set { texture: usize, pname: u32, value: u32 },
    Draw(Box<Draw>),
}

/// A draw answers its count of pixel writes, any other call 0.
pub type Answer = Result<u32, Refusal>;

#[derive(Clone)]
pub struct Machine {
    pub target: Target,
    store: Store,
    textures: Vec<Texture>,
}

impl Machine {
    /// The start that all runs share.
    pub fn start() -> Machine {
        let mut target = Target::new(WIDTH, HEIGHT).expect("sides below 4,096");
        for pixel in target.colors_mut().chunks_exact_mut(4) {
            pixel.copy_from_slice(&START);
        }
        Machine { target, store: Store::new(GUESTS * REGION), textures: vec![Texture::new(); GUESTS * TEXTURES] }
    }

    pub fn call(&mut self, call: &Call) -> Answer {
        let Machine { target, store, textures } = self;
        match call {
            Call::ClearColor { color, scissor } => target.clear_color(*color, *scissor)?,
            Call::ClearDepth { value, scissor } => target.clear_depth(*value, *scissor)?,
            Call::Define { texture, level, width, height, place, rgba } => {
                textures[*texture].define_level(store, *level, *width, *height, *place, rgba)?
            }
            Call::Patch { texture, level, rect, patch } => textures[*texture].patch_level(store, *level, *rect, patch)?,
            Call::Set { texture, pname, value } => textures[*texture].set_parameter(*pname, *value)?,
            Call::Draw(draw) => {
                let units = draw.units.map(|name| &textures[name]);
                return target.draw_triangle(store, units, &draw.settings, &draw.stages, &draw.vertices);
            }
        }
        Ok(0)
    }
}

/// What a guest got of its calls.
#[derive(Clone, Default, PartialEq)]
pub struct Account {
    pub answers: Vec<Answer>,
}

impl Account {
    /// The sum of its draws' counts.
    pub fn bill(&self) -> u64 {
        self.answers.iter().flatten().map(|&count| u64::from(count)).sum()
    }

    pub fn refused(&self) -> usize {
        self.answers.iter().filter(|answer| answer.is_err()).count()
    }
}

/// The numbers of splitmix64.
pub struct Random(pub u64);

impl Random {
    pub fn next(&mut self) -> u64 {
        self.0 = self.0.wrapping_add(0x9E37_79B9_7F4A_7C15);
        let mut z = self.0;
        z = (z ^ (z >> 30)).wrapping_mul(0xBF58_476D_1CE4_E5B9);
        z = (z ^ (z >> 27)).wrapping_mul(0x94D0_49BB_1331_11EB);
        z ^ (z >> 31)
    }

    pub fn below(&mut self, n: u64) -> u64 {
        self.next() % n
    }
}

/// FNV-1a of 64 bits.
pub fn hash(bytes: impl IntoIterator<Item = u8>) -> u64 {
    bytes.into_iter().fold(0xCBF2_9CE4_8422_2325, |h, byte| (h ^ u64::from(byte)).wrapping_mul(0x0000_0100_0000_01B3))
}
