//! One case of an admission, put together event by event.

use crate::admission::Admission;
use crate::cases::pieces::{laid, piece, written, Piece};
use crate::cases::Vectors;
use crate::protocol::closed_answer;

/// What stands for a close and for an ask where a chunk has its length.
const CLOSE: usize = 65_535;
const ASK: usize = 65_534;

/// What comes.
#[derive(Clone, Copy)]
enum Event {
    Chunk(usize),
    Close,
    Ask,
}

/// A case that is being put together.
#[derive(Clone)]
pub struct Case {
    pieces: Vec<Piece>,
    events: Vec<(usize, Event)>,
}

impl Case {
    /// Bytes of which nothing has come.
    pub fn of(bytes: &[u8]) -> Case {
        Case::of_pieces(&[piece(1, bytes)])
    }

    /// The same, the bytes in pieces.
    pub fn of_pieces(pieces: &[Piece]) -> Case {
        Case {
            pieces: pieces.to_vec(),
            events: Vec::new(),
        }
    }

    /// Bytes that come in chunks of so many, the last of what is left, and a close.
    pub fn in_chunks(pieces: &[Piece], length: usize) -> Case {
        let (whole, left) = (laid(pieces).len() / length, laid(pieces).len() % length);
        let case = Case::of_pieces(pieces).chunks(whole, length);
        case.chunks(left.min(1), left).close()
    }

    /// Then a chunk of so many bytes.
    pub fn chunk(self, length: usize) -> Case {
        self.chunks(1, length)
    }

    /// Then so many chunks of so many bytes.
    pub fn chunks(self, times: usize, length: usize) -> Case {
        assert!(length < ASK, "longer than a chunk can be said to be");
        self.then(times, Event::Chunk(length))
    }

    /// Then a close.
    pub fn close(self) -> Case {
        self.then(1, Event::Close)
    }

    /// Then an ask.
    pub fn ask(self) -> Case {
        self.then(1, Event::Ask)
    }

    /// What comes no time is left out.
    fn then(mut self, times: usize, event: Event) -> Case {
        if times > 0 {
            self.events.push((times, event));
        }
        self
    }

    /// Adds the case with its answers.
    pub fn add(&self, vectors: &mut Vectors) {
        vectors.add(&self.bytes(), &self.answers().join(" ; "));
    }

    fn bytes(&self) -> Vec<u8> {
        let mut bytes = vec![b'A'];
        bytes.extend(written(&self.pieces));
        bytes.extend(number(self.events.len()));
        for (times, event) in &self.events {
            bytes.extend(number(*times));
            bytes.extend(number(match event {
                Event::Chunk(length) => *length,
                Event::Close => CLOSE,
                Event::Ask => ASK,
            }));
        }
        bytes
    }

    fn answers(&self) -> Vec<String> {
        let bytes = laid(&self.pieces);
        let mut left = &bytes[..];
        let mut admission = Admission::default();
        let mut last = |&(times, event): &(usize, Event)| {
            let each = (0..times).map(|_| answer(&mut admission, event, &mut left));
            each.last().unwrap_or_default()
        };
        self.events.iter().map(&mut last).collect()
    }
}

/// The answer to an event, which takes its bytes from those that are left.
fn answer(admission: &mut Admission, event: Event, left: &mut &[u8]) -> String {
    match event {
        Event::Chunk(length) => {
            let (chunk, rest) = left.split_at(length);
            *left = rest;
            match admission.chunk(chunk) {
                Ok(()) => "ok".to_string(),
                Err(number) => format!("refused {number}"),
            }
        }
        Event::Close => closed_answer(&admission.close()),
        Event::Ask => admission.answer().map_or("open".to_string(), closed_answer),
    }
}

fn number(number: usize) -> [u8; 2] {
    u16::try_from(number)
        .expect("more than two bytes can say")
        .to_le_bytes()
}

#[cfg(test)]
mod tests {
    use super::*;

    /// Six bytes: one, nothing twice, the close too soon, the rest in twos.
    #[test]
    fn events_and_their_answers() {
        let case = Case::of(&[0, 0, 1, 2, 3, 4]).ask().chunk(2).chunks(2, 0);
        let case = case.close().chunks(2, 2).ask();
        let mut vectors = Vectors::default();
        case.add(&mut vectors);
        let bytes = [
            0x41, 1, 1, 0, 0, 0, 6, 0, 0, 0, 1, 2, 3, 4, 6, 0, 1, 0, 0xFE, 0xFF, 1, 0, 2, 0, 2, 0,
            0, 0, 1, 0, 0xFF, 0xFF, 2, 0, 2, 0, 1, 0, 0xFE, 0xFF,
        ];
        assert_eq!(vectors.stdin, bytes);
        let answers = "open ; ok ; ok ; good 0 ; refused 37 ; good 0\n";
        assert_eq!(vectors.stdout, answers);
    }

    #[test]
    fn chunks_of_a_length() {
        let events = |length| {
            let case = Case::in_chunks(&[piece(7, &[0])], length);
            let chunk = |&(times, event): &(usize, Event)| match event {
                Event::Chunk(length) => Some((times, length)),
                _ => None,
            };
            case.events.iter().filter_map(chunk).collect::<Vec<_>>()
        };
        assert_eq!(events(1), [(7, 1)]);
        assert_eq!(events(3), [(2, 3), (1, 1)]);
        assert_eq!(events(7), [(1, 7)]);
        assert_eq!(events(8), [(1, 7)]);
    }
}
