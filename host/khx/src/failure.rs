//! How a command ends.

use std::fmt;
use std::io;

/// What a command that did its work found.
#[derive(Clone, Copy, Debug, PartialEq, Eq)]
pub enum Outcome {
    /// Nothing was refused and nothing faulted.
    Good,
    /// Something was, and the output says what.
    Bad,
}

/// Why a command could not do its work.
#[derive(Debug)]
pub enum Failure {
    /// The words after its name are wrong.
    Usage(String),
    /// A file cannot be read or written, or is not what it should be.
    File(String),
    /// The engine refused what was handed in.
    Refused(String),
    /// Standard output cannot be written.
    Output(io::Error),
}

impl Failure {
    pub fn usage(message: impl Into<String>) -> Failure {
        Failure::Usage(message.into())
    }

    /// The same, with a hint behind the message if there is one.
    pub fn hinted(self, hint: Option<String>) -> Failure {
        let with = |message: String| match &hint {
            Some(hint) => format!("{message} (hint: {hint})"),
            None => message,
        };
        match self {
            Failure::File(message) => Failure::File(with(message)),
            Failure::Refused(message) => Failure::Refused(with(message)),
            other => other,
        }
    }

    /// The same, with the place that led to it before the message.
    pub fn at(self, place: &str) -> Failure {
        match self {
            Failure::File(message) => Failure::File(format!("{place}: {message}")),
            other => other,
        }
    }

    /// The command's exit status.
    pub fn status(&self) -> u8 {
        match self {
            Failure::Refused(_) => 1,
            Failure::Usage(_) | Failure::File(_) | Failure::Output(_) => 2,
        }
    }
}

impl fmt::Display for Failure {
    fn fmt(&self, f: &mut fmt::Formatter<'_>) -> fmt::Result {
        match self {
            Failure::Usage(message) | Failure::File(message) | Failure::Refused(message) => {
                f.write_str(message)
            }
            Failure::Output(error) => write!(f, "standard output: {error}"),
        }
    }
}

impl From<io::Error> for Failure {
    fn from(error: io::Error) -> Failure {
        Failure::Output(error)
    }
}
