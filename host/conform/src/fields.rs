//! The fields of a case, from left to right. Each function takes the next field, and
//! gives none where it is missing or outside its kind or range.

use crate::engine::{Event, Number, State, Status};

/// The fields of a line that are not taken yet; none are left after the last.
pub struct Fields<'a> {
    rest: Option<&'a [u8]>,
}

impl<'a> Fields<'a> {
    pub fn of(line: &'a [u8]) -> Fields<'a> {
        Fields { rest: Some(line) }
    }

    /// The next field as it stands. Fields are separated by one blank, so a second
    /// blank begins an empty field.
    pub fn word(&mut self) -> Option<&'a [u8]> {
        let rest = self.rest?;
        let blank = rest.iter().position(|byte| *byte == b' ');
        self.rest = blank.map(|at| &rest[at + 1..]);
        Some(&rest[..blank.unwrap_or(rest.len())])
    }

    /// That no field is left.
    pub fn end(&self) -> Option<()> {
        self.rest.is_none().then_some(())
    }

    pub fn bytes(&mut self) -> Option<Vec<u8>> {
        bytes(self.word()?)
    }

    pub fn cells(&mut self) -> Option<Vec<u16>> {
        let cell = |digits: &[u8]| {
            let next = |cell, byte: &u8| Some(cell << 4 | u16::from(digit(*byte)?));
            digits.iter().try_fold(0, next)
        };
        list(self.word()?, 4, cell)
    }

    pub fn number_u8(&mut self) -> Option<u8> {
        u8::try_from(decimal(self.word()?)?).ok()
    }

    pub fn number_u16(&mut self) -> Option<u16> {
        u16::try_from(decimal(self.word()?)?).ok()
    }

    pub fn number_u32(&mut self) -> Option<u32> {
        decimal(self.word()?)
    }

    pub fn state(&mut self) -> Option<State> {
        Some(State {
            address: self.number_u16()?.into(),
            depth: self.number_u16()?.into(),
            status: status(self.word()?)?,
        })
    }

    /// All fields that are left, of which there is at least one.
    pub fn events(&mut self) -> Option<Vec<Event>> {
        let mut events = vec![event(self.word()?)?];
        while let Some(word) = self.word() {
            events.push(event(word)?);
        }
        Some(events)
    }
}

fn bytes(word: &[u8]) -> Option<Vec<u8>> {
    let byte = |digits: &[u8]| Some(digit(digits[0])? << 4 | digit(digits[1])?);
    list(word, 2, byte)
}

fn event(word: &[u8]) -> Option<Event> {
    match word {
        b"close" => Some(Event::Close),
        b"ask" => Some(Event::Ask),
        _ => bytes(word).map(Event::Chunk),
    }
}

fn status(word: &[u8]) -> Option<Status> {
    match word {
        b"running" => Some(Status::Running),
        b"halted" => Some(Status::Halted),
        _ => {
            let fault = decimal(word.strip_prefix(b"faulted:")?)?;
            Some(Status::Faulted(Number::from(u8::try_from(fault).ok()?)))
        }
    }
}

/// Items of so many hex digits each, `-` for none of them.
fn list<T>(word: &[u8], digits: usize, item: impl Fn(&[u8]) -> Option<T>) -> Option<Vec<T>> {
    match word {
        b"" => return None,
        b"-" => return Some(Vec::new()),
        _ if word.len() % digits != 0 => return None,
        _ => {}
    }
    let mut items = Vec::with_capacity(word.len() / digits);
    for digits in word.chunks_exact(digits) {
        items.push(item(digits)?);
    }
    Some(items)
}

/// A number of at most 32 bits, in decimal digits alone; it may begin with zeros.
fn decimal(word: &[u8]) -> Option<u32> {
    let next = |number: u32, byte: &u8| {
        let digit = byte.is_ascii_digit().then(|| u32::from(byte - b'0'))?;
        number.checked_mul(10)?.checked_add(digit)
    };
    match word {
        b"" => None,
        _ => word.iter().try_fold(0, next),
    }
}

fn digit(byte: u8) -> Option<u8> {
    Some(DIGITS[usize::from(byte)]).filter(|digit| *digit < 16)
}

const DIGITS: [u8; 256] = digits();

/// The value of each character that is a lower-case hex digit, 16 for the others.
const fn digits() -> [u8; 256] {
    let mut values = [16; 256];
    let mut digit = 0;
    while digit < 16 {
        values[b"0123456789abcdef"[digit as usize] as usize] = digit;
        digit += 1;
    }
    values
}
