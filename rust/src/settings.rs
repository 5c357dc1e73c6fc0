//! The settings and stages of a draw, and their layouts.
use crate::{ffi, Refusal};

/// A box: a viewport or a scissor. x and y count from the target's bottom left.
#[derive(Clone, Copy, Debug, Default, PartialEq, Eq, Hash)]
pub struct Rect {
    /// Its left end.
    pub x: i32,
    /// Its lower end.
    pub y: i32,
    /// Its width.
    pub width: i32,
    /// Its height.
    pub height: i32,
}

impl Rect {
    /// The box of these numbers.
    pub const fn new(x: i32, y: i32, width: i32, height: i32) -> Rect {
        Rect { x, y, width, height }
    }
}

/// An enum whose values are OpenGL's codes.
macro_rules! codes {
    ($(#[$about:meta])* $name:ident { $($(#[$doc:meta])* $value:ident = $code:literal,)+ }) => {
        $(#[$about])*
        #[derive(Clone, Copy, Debug, PartialEq, Eq, Hash)]
        #[repr(u32)]
        pub enum $name { $($(#[$doc])* $value = $code,)+ }

        impl $name {
            /// All of them.
            pub const ALL: &'static [$name] = &[$($name::$value),+];

            /// OpenGL's code.
            pub const fn code(self) -> u32 {
                self as u32
            }
        }
    };
}
pub(crate) use codes;

codes! {
    /// A comparison, of the depth test and of the alpha test.
    CompareFunc {
        /// No fragment passes.
        Never = 0x0200,
        /// The incoming value is less.
        Less = 0x0201,
        /// The two are equal.
        Equal = 0x0202,
        /// Less or equal.
        LessOrEqual = 0x0203,
        /// Greater.
        Greater = 0x0204,
        /// Not equal.
        NotEqual = 0x0205,
        /// Greater or equal.
        GreaterOrEqual = 0x0206,
        /// Every fragment passes.
        Always = 0x0207,
    }
}

impl CompareFunc {
    /// The comparison of a code.
    ///
    /// ```
    /// use tilefringe::{CompareFunc, Refusal};
    /// assert_eq!(CompareFunc::from_code(0x0201), Ok(CompareFunc::Less));
    /// assert_eq!(CompareFunc::from_code(0x0208), Err(Refusal::Code));
    /// ```
    pub fn from_code(code: u32) -> Result<CompareFunc, Refusal> {
        Refusal::check(ffi::tf_compare_func(code))?;
        CompareFunc::ALL.iter().copied().find(|f| f.code() == code).ok_or(Refusal::Code)
    }
}

codes! {
    /// A blend factor.
    BlendFactor {
        /// 0.
        Zero = 0,
        /// 1.
        One = 1,
        /// The source's colour.
        SrcColor = 0x0300,
        /// 1 minus it.
        OneMinusSrcColor = 0x0301,
        /// The source's alpha.
        SrcAlpha = 0x0302,
        /// 1 minus it.
        OneMinusSrcAlpha = 0x0303,
        /// The destination's alpha.
        DstAlpha = 0x0304,
        /// 1 minus it.
        OneMinusDstAlpha = 0x0305,
        /// The destination's colour.
        DstColor = 0x0306,
        /// 1 minus it.
        OneMinusDstColor = 0x0307,
        /// The lesser of the source's alpha and 1 minus the destination's.
        SrcAlphaSaturate = 0x0308,
    }
}

impl BlendFactor {
    /// The factor of a code.
    ///
    /// ```
    /// use tilefringe::{BlendFactor, Refusal};
    /// assert_eq!(BlendFactor::from_code(0x0302), Ok(BlendFactor::SrcAlpha));
    /// assert_eq!(BlendFactor::from_code(2), Err(Refusal::Code));
    /// ```
    pub fn from_code(code: u32) -> Result<BlendFactor, Refusal> {
        Refusal::check(ffi::tf_blend_factor(code))?;
        BlendFactor::ALL.iter().copied().find(|f| f.code() == code).ok_or(Refusal::Code)
    }
}

codes! {
    /// Which faces are culled.
    Face {
        /// Front faces.
        Front = 0x0404,
        /// Back faces.
        Back = 0x0405,
        /// Both.
        FrontAndBack = 0x0408,
    }
}

codes! {
    /// How a front face turns.
    FrontFace {
        /// Clockwise.
        Clockwise = 0x0900,
        /// Counter-clockwise.
        CounterClockwise = 0x0901,
    }
}

codes! {
    /// The curve of the fog.
    FogMode {
        /// Linear, from the start to the end.
        Linear = 0x2601,
        /// Exponential: a draw with this fog on is refused by 7.
        Exp = 0x0800,
        /// Exponential in the square: likewise.
        Exp2 = 0x0801,
    }
}

codes! {
    /// The texture environment of a stage.
    Environment {
        /// The fragment times the texel.
        Modulate = 0x2100,
        /// The texel.
        Replace = 0x1E01,
        /// The texel over the fragment, by the texel's alpha.
        Decal = 0x2101,
        /// From the fragment to the environment colour, by the texel.
        Blend = 0x0BE2,
        /// The sum.
        Add = 0x0104,
    }
}

/// A texture stage of a draw.
#[derive(Clone, Copy, Debug, PartialEq)]
pub struct Stage {
    /// The unit whose texture and coordinates it takes, 0 to 3.
    pub unit: u32,
    /// What it does with the texel.
    pub environment: Environment,
    /// The environment colour: red, green, blue, alpha.
    pub color: [f32; 4],
}

impl Stage {
    /// The bytes of its layout.
    pub const SIZE: usize = 24;

    /// A stage of a unit, with the environment colour 0.
    pub const fn new(unit: u32, environment: Environment) -> Stage {
        Stage { unit, environment, color: [0.0; 4] }
    }

    /// Its layout.
    pub fn to_bytes(&self) -> [u8; Stage::SIZE] {
        let mut words = Words([0; Stage::SIZE], 0);
        words.number(self.unit);
        words.number(self.environment.code());
        words.floats(&self.color);
        words.0
    }
}

/// The settings of a draw.
///
/// ```
/// use tilefringe::{BlendFactor, CompareFunc, Rect, Settings};
/// let window = Rect::new(0, 0, 100, 96);
/// let settings = Settings {
///     viewport: window,
///     scissor: Some(window),
///     depth_test: true,
///     blend: true,
///     blend_src: BlendFactor::SrcAlpha,
///     blend_dst: BlendFactor::OneMinusSrcAlpha,
///     ..Settings::default()
/// };
/// assert_eq!(settings.depth_func, CompareFunc::Less);
/// assert_eq!(settings.to_bytes().len(), Settings::SIZE);
/// ```
#[derive(Clone, Copy, Debug, PartialEq)]
pub struct Settings {
    /// The viewport. A width or height of zero or less draws nothing.
    pub viewport: Rect,
    /// The depth range, near and far.
    pub depth_range: [f32; 2],
    /// The scissor box; none is the whole target.
    pub scissor: Option<Rect>,
    /// Whether depths are tested.
    pub depth_test: bool,
    /// By which comparison.
    pub depth_func: CompareFunc,
    /// Whether depths are written.
    pub depth_write: bool,
    /// Whether alpha is tested.
    pub alpha_test: bool,
    /// By which comparison.
    pub alpha_func: CompareFunc,
    /// With which reference value.
    pub alpha_ref: f32,
    /// Whether colours are blended.
    pub blend: bool,
    /// The source's factor.
    pub blend_src: BlendFactor,
    /// The destination's factor.
    pub blend_dst: BlendFactor,
    /// The faces that are culled.
    pub cull: Option<Face>,
    /// How a front face turns.
    pub front_face: FrontFace,
    /// Whether red, green, blue and alpha are written.
    pub color_mask: [bool; 4],
    /// Whether there is fog. Its curve is [`FogMode::Exp`] by default, which is refused by 7 where this is on: linear fog sets its curve too.
    pub fog: bool,
    /// Its curve.
    pub fog_mode: FogMode,
    /// Its colour.
    pub fog_color: [f32; 4],
    /// Where linear fog starts.
    pub fog_start: f32,
    /// Where linear fog ends.
    pub fog_end: f32,
    /// The density of exponential fog.
    pub fog_density: f32,
    /// Whether colours are interpolated; else the last vertex gives the colour.
    pub smooth_shading: bool,
}

impl Default for Settings {
    /// Those of the Rust's `PipelineState::default`. Their viewport is 0 by 0: a draw by them writes nothing.
    fn default() -> Settings {
        Settings {
            viewport: Rect::default(),
            depth_range: [0.0, 1.0],
            scissor: None,
            depth_test: false,
            depth_func: CompareFunc::Less,
            depth_write: true,
            alpha_test: false,
            alpha_func: CompareFunc::Always,
            alpha_ref: 0.0,
            blend: false,
            blend_src: BlendFactor::One,
            blend_dst: BlendFactor::Zero,
            cull: None,
            front_face: FrontFace::CounterClockwise,
            color_mask: [true; 4],
            fog: false,
            fog_mode: FogMode::Exp,
            fog_color: [0.0; 4],
            fog_start: 0.0,
            fog_end: 1.0,
            fog_density: 1.0,
            smooth_shading: true,
        }
    }
}

impl Settings {
    /// The bytes of their layout.
    pub const SIZE: usize = 144;

    /// Their layout.
    pub fn to_bytes(&self) -> [u8; Settings::SIZE] {
        let mut words = Words([0; Settings::SIZE], 0);
        words.rect(self.viewport);
        words.floats(&self.depth_range);
        words.switch(self.scissor.is_some());
        words.rect(self.scissor.unwrap_or_default());
        words.switch(self.depth_test);
        words.number(self.depth_func.code());
        words.switch(self.depth_write);
        words.switch(self.alpha_test);
        words.number(self.alpha_func.code());
        words.floats(&[self.alpha_ref]);
        words.switch(self.blend);
        words.number(self.blend_src.code());
        words.number(self.blend_dst.code());
        words.number(self.cull.map_or(0, Face::code));
        words.number(self.front_face.code());
        for on in self.color_mask {
            words.switch(on);
        }
        words.switch(self.fog);
        words.number(self.fog_mode.code());
        words.floats(&self.fog_color);
        words.floats(&[self.fog_start, self.fog_end, self.fog_density]);
        words.switch(self.smooth_shading);
        words.0
    }
}

/// A layout of little-endian words, and how far it is written.
struct Words<const N: usize>([u8; N], usize);

impl<const N: usize> Words<N> {
    fn number(&mut self, n: u32) {
        self.0[self.1..self.1 + 4].copy_from_slice(&n.to_le_bytes());
        self.1 += 4;
    }

    fn switch(&mut self, on: bool) {
        self.number(u32::from(on));
    }

    fn floats(&mut self, floats: &[f32]) {
        for float in floats {
            self.number(float.to_bits());
        }
    }

    fn rect(&mut self, rect: Rect) {
        for n in [rect.x, rect.y, rect.width, rect.height] {
            self.number(n as u32);
        }
    }
}
