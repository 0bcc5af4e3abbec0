//! The implementations that can be asked.

mod proved;
mod second;
mod shown;
mod watched;

pub use self::second::Second;
pub use proved::Proved;
