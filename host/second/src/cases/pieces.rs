//! Long bytes described in short: as pieces that stand there several times.
//!
//! Written down as how many pieces there are, u8, then for each how often it
//! stands there as u16, its step as u16, its length as u16, its bytes. Every time
//! that a piece stands there again, the number in its last two bytes is larger by
//! the step, modulo 65,536.

/// Bytes that stand there several times, the number in the last two of them
/// larger by the step each time.
#[derive(Clone)]
pub struct Piece {
    times: u16,
    step: u16,
    bytes: Vec<u8>,
}

/// Bytes that stand there so many times.
pub fn piece(times: usize, bytes: &[u8]) -> Piece {
    stepped(times, bytes, 0)
}

/// Bytes that stand there so many times, with a step.
pub fn stepped(times: usize, bytes: &[u8], step: u16) -> Piece {
    Piece {
        times: u16::try_from(times).expect("more than two bytes can say"),
        step,
        bytes: bytes.to_vec(),
    }
}

impl Piece {
    fn lay(&self, whole: &mut Vec<u8>) {
        let mut added = 0_u16;
        for _ in 0..self.times {
            let start = whole.len();
            whole.extend(&self.bytes);
            if let [.., low, high] = &mut whole[start..] {
                let number = u16::from_le_bytes([*low, *high]).wrapping_add(added);
                let [new_low, new_high] = number.to_le_bytes();
                *low = new_low;
                *high = new_high;
            }
            added = added.wrapping_add(self.step);
        }
    }
}

/// The bytes that pieces make.
pub fn laid(pieces: &[Piece]) -> Vec<u8> {
    let mut whole = Vec::new();
    for piece in pieces {
        piece.lay(&mut whole);
    }
    whole
}

/// Pieces in their binary form.
pub fn written(pieces: &[Piece]) -> Vec<u8> {
    let mut bytes = vec![pieces.len() as u8];
    for piece in pieces {
        bytes.extend(piece.times.to_le_bytes());
        bytes.extend(piece.step.to_le_bytes());
        bytes.extend((piece.bytes.len() as u16).to_le_bytes());
        bytes.extend(&piece.bytes);
    }
    bytes
}

#[cfg(test)]
mod tests {
    use super::*;

    #[test]
    fn pieces_repeat_and_count() {
        let pieces = [
            stepped(3, &[0x56, 0xFD, 0x00], 2),
            piece(2, &[0x81]),
            stepped(2, &[0x57, 0x01, 0x00], 65_535),
        ];
        let expected = [
            0x56, 0xFD, 0x00, 0x56, 0xFF, 0x00, 0x56, 0x01, 0x01, 0x81, 0x81, 0x57, 0x01, 0x00,
            0x57, 0x00, 0x00,
        ];
        assert_eq!(laid(&pieces), expected);
    }
}
