
/// consts.rs has nothing private.
pub mod probe {}
