//! Which processor this is, and what its kind means for the figures.

#[cfg(not(target_arch = "x86_64"))]
mod other;
#[cfg(target_arch = "x86_64")]
mod x86_64;

#[cfg(not(target_arch = "x86_64"))]
pub use other::{name, remark};
#[cfg(target_arch = "x86_64")]
pub use x86_64::{name, remark};
