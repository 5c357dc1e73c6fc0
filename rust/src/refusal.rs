use std::fmt;

/// Why a call was refused: a number of document 01, or 255 for a layout that is no call of it. A refused call changes nothing.
///
/// ```
/// use tilefringe::{Refusal, Target};
/// let refusal = Target::new(4_097, 1).unwrap_err();
/// assert_eq!(refusal, Refusal::Target);
/// assert_eq!(refusal.number(), 1);
/// assert_eq!(refusal.to_string(), "refused (1): target side above 4,096, or colours or depths that do not fit its sides");
/// ```
#[derive(Clone, Copy, Debug, PartialEq, Eq, Hash, PartialOrd, Ord)]
#[repr(u32)]
pub enum Refusal {
    /// 1: a target side above 4,096, or lengths of colours or depths that do not fit its sides.
    Target = 1,
    /// 2: a scissor number outside -8,192 to 8,192.
    Scissor = 2,
    /// 3: a viewport x or y outside -8,192 to 8,192, or a width or height above 4,096.
    Viewport = 3,
    /// 4: a float of the settings, or a depth to clear to, that is not finite or above 1,048,576 in magnitude.
    Float = 4,
    /// 5: a vertex's number that is not finite or above 1,048,576 in magnitude.
    Vertex = 5,
    /// 6: more than four stages, a unit above 3, or an environment colour that fails the rule of 4.
    Stage = 6,
    /// 7: fog on with an exponential curve.
    Fog = 7,
    /// 8: a texture record with a level past the store, levels that overlap, a side above 1,024, or a wrong top level.
    Record = 8,
    /// 9: an image side above 1,024, or a level above 10.
    Image = 9,
    /// 10: a place past the store, or over a level of the same texture that stays.
    Place = 10,
    /// 11: too few bytes; for a define, not 4 x width x height.
    Bytes = 11,
    /// 12: a level that is absent or above 10.
    Level = 12,
    /// 13: a rectangle past the level.
    Rectangle = 13,
    /// 14: an unknown format or type.
    Format = 14,
    /// 15: an output that is not 4 x width x height bytes.
    Output = 15,
    /// 16: an unknown code.
    Code = 16,
    /// 255: a layout of another length, or with an unknown code.
    Layout = 255,
}

impl Refusal {
    /// All of them, in the order of their numbers.
    pub const ALL: [Refusal; 17] = [
        Refusal::Target,
        Refusal::Scissor,
        Refusal::Viewport,
        Refusal::Float,
        Refusal::Vertex,
        Refusal::Stage,
        Refusal::Fog,
        Refusal::Record,
        Refusal::Image,
        Refusal::Place,
        Refusal::Bytes,
        Refusal::Level,
        Refusal::Rectangle,
        Refusal::Format,
        Refusal::Output,
        Refusal::Code,
        Refusal::Layout,
    ];

    /// Document 01's number.
    pub const fn number(self) -> u32 {
        self as u32
    }

    /// The refusal of a number; none for 0, which is done, and for a number that no call answers.
    pub fn from_number(number: u32) -> Option<Refusal> {
        Refusal::ALL.into_iter().find(|refusal| refusal.number() == number)
    }

    /// What it means.
    pub const fn meaning(self) -> &'static str {
        match self {
            Refusal::Target => "target side above 4,096, or colours or depths that do not fit its sides",
            Refusal::Scissor => "scissor number outside -8,192 to 8,192",
            Refusal::Viewport => "viewport x or y outside -8,192 to 8,192, or width or height above 4,096",
            Refusal::Float => "float that is not finite, or above 1,048,576 in magnitude",
            Refusal::Vertex => "vertex number that is not finite, or above 1,048,576 in magnitude",
            Refusal::Stage => "more than four stages, unit above 3, or environment colour out of range",
            Refusal::Fog => "fog on with an exponential curve",
            Refusal::Record => "texture record with a level past the store, levels that overlap, a side above 1,024, or a wrong top level",
            Refusal::Image => "image side above 1,024, or level above 10",
            Refusal::Place => "place past the store, or over a level of the same texture that stays",
            Refusal::Bytes => "too few bytes; for a define, not 4 x width x height",
            Refusal::Level => "level absent or above 10",
            Refusal::Rectangle => "rectangle past the level",
            Refusal::Format => "unknown format or type",
            Refusal::Output => "output not 4 x width x height bytes",
            Refusal::Code => "unknown code",
            Refusal::Layout => "layout of another length, or with an unknown code",
        }
    }

    /// An answer of the C interface as a result.
    pub(crate) fn check(answer: u32) -> Result<(), Refusal> {
        if answer == 0 {
            return Ok(());
        }
        // The contracts leave no other number.
        Err(Refusal::from_number(answer).unwrap_or_else(|| panic!("the library answered {answer}")))
    }
}

impl fmt::Display for Refusal {
    fn fmt(&self, f: &mut fmt::Formatter<'_>) -> fmt::Result {
        write!(f, "refused ({}): {}", self.number(), self.meaning())
    }
}

impl std::error::Error for Refusal {}
