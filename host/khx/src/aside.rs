//! What is told beside a command's output: a line on standard error.

use std::io::{self, Write};

/// Tells a line. Where it cannot be written, the exit status must do.
pub fn tell(text: &str) {
    let _ = writeln!(io::stderr(), "khx: {}", text.replace('\n', " "));
}

/// Tells a hint, if there is one.
pub fn hint(hint: Option<String>) {
    if let Some(hint) = hint {
        tell(&format!("hint: {hint}"));
    }
}
