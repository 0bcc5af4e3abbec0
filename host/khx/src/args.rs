//! The words after a command's name: options anywhere, then the files.

use std::ffi::{OsStr, OsString};
use std::ops::RangeInclusive;

use crate::failure::Failure;

/// The words that are not taken yet.
pub struct Args {
    command: String,
    words: Vec<OsString>,
}

impl Args {
    pub fn new(command: &str, words: Vec<OsString>) -> Args {
        Args {
            command: command.to_string(),
            words,
        }
    }

    /// Whether an option without a value is there.
    pub fn flag(&mut self, name: &str) -> bool {
        let before = self.words.len();
        self.words.retain(|word| word != name);
        self.words.len() < before
    }

    /// Whether an option is there, which is not taken yet.
    pub fn has(&self, name: &str) -> bool {
        self.words.iter().any(|word| word == name)
    }

    /// The value of an option, the word after it.
    pub fn value(&mut self, name: &str) -> Result<Option<OsString>, Failure> {
        let at = match self.words.iter().position(|word| word == name) {
            Some(at) => at,
            None => return Ok(None),
        };
        self.words.remove(at);
        if at == self.words.len() {
            return Err(self.wrong(&format!("{name} needs a value")));
        }
        let value = self.words.remove(at);
        match self.has(name) {
            true => Err(self.wrong(&format!("{name} is given twice"))),
            false => Ok(Some(value)),
        }
    }

    /// The number that an option gives, in decimal, or the one that holds without it.
    pub fn number(
        &mut self,
        name: &str,
        otherwise: u32,
        range: RangeInclusive<u32>,
    ) -> Result<u32, Failure> {
        let value = match self.value(name)? {
            Some(value) => value,
            None => return Ok(otherwise),
        };
        let number = value.to_str().and_then(|value| value.parse().ok());
        match number.filter(|number| range.contains(number)) {
            Some(number) => Ok(number),
            None => {
                let (from, to) = (range.start(), range.end());
                Err(self.wrong(&format!("{name} needs a number from {from} to {to}")))
            }
        }
    }

    /// All that is left, where no option is.
    pub fn rest(&mut self) -> Result<Vec<OsString>, Failure> {
        if let Some(option) = self.words.iter().find(|word| is_option(word)) {
            let option = option.to_string_lossy();
            return Err(self.wrong(&format!("there is no option {option}")));
        }
        Ok(std::mem::take(&mut self.words))
    }

    /// The files, which are all that is left: one for each of the names.
    pub fn files<const N: usize>(mut self, names: &[&str; N]) -> Result<[OsString; N], Failure> {
        let words = self.rest()?;
        if let Some(name) = names.get(words.len()) {
            return Err(self.wrong(&format!("no {name} is given")));
        }
        if let Some(word) = words.get(N) {
            let word = word.to_string_lossy();
            return Err(self.wrong(&format!("one word too many: {word}")));
        }
        words.try_into().map_err(|_| self.wrong("wrong words"))
    }

    pub fn wrong(&self, message: &str) -> Failure {
        let command = &self.command;
        Failure::usage(format!("{command}: {message}: see khx {command} --help"))
    }
}

fn is_option(word: &OsStr) -> bool {
    word.to_string_lossy().starts_with('-') && word != "-"
}
