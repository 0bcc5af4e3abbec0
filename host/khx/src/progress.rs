//! A line on standard error that tells how far a long piece of work is: on a terminal
//! alone, after two seconds, and wiped at the end.

use std::io::{self, Write};
use std::time::{Duration, Instant};

use crate::terminal;

const FIRST: Duration = Duration::from_secs(2);
const BETWEEN: Duration = Duration::from_millis(200);

pub struct Progress {
    next: Option<Instant>,
    shown: bool,
}

impl Progress {
    /// Progress of what begins now.
    pub fn new() -> Progress {
        Progress::only_if(true)
    }

    /// The same, silent where the terminal is used for something else.
    pub fn only_if(wanted: bool) -> Progress {
        let on = wanted && terminal::is_error();
        Progress {
            next: on.then(|| Instant::now() + FIRST),
            shown: false,
        }
    }

    /// Shows the text if it is time to.
    pub fn show(&mut self, text: impl FnOnce() -> String) {
        let now = Instant::now();
        if self.next.map_or(false, |next| now >= next) {
            write(&text());
            self.next = Some(now + BETWEEN);
            self.shown = true;
        }
    }
}

impl Drop for Progress {
    fn drop(&mut self) {
        if self.shown {
            write("");
        }
    }
}

/// Writes over the line; a terminal that takes no more is no reason to stop.
fn write(text: &str) {
    let _ = write!(io::stderr(), "\r\x1b[K{text}");
}
