//! A processor that the shipped library is not for.

use std::env::consts::ARCH;

pub fn name() -> String {
    ARCH.to_string()
}

/// What was timed in place of the shipped library.
pub fn remark() -> Option<String> {
    Some(format!(
        "The library ships for x86-64. Timed is the same code, compiled for {ARCH}."
    ))
}
