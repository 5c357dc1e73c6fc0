//! The port held to the Rust. See docs/TESTING.md.
pub mod ctx;
pub mod floats;
pub mod judge;
pub mod parts;
pub mod random;
pub mod record;
pub mod same;
pub mod shrink;
pub mod tally;

pub use ctx::Ctx;
pub use random::Rng;
pub use record::Record;
pub use tally::Tally;

/// One comparison: a file of `parts/`.
pub struct Part {
    pub name: &'static str,
    /// How many cases it runs unless --cases says otherwise: some seconds to a minute. help.txt has both, and what it compares.
    pub cases: u64,
    pub run: fn(&mut Ctx),
    /// A fixed sample of the Rust's answers, at least 400, for crates/replay_NAME.
    pub record: Option<fn(&mut Record)>,
}
