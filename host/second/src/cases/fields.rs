//! Bytes and cells in the answers: as the protocol has them, but where there are
//! more than 256 as `#` and their checksum.

use crate::protocol;

/// The most that are written out.
const WHOLE: usize = 256;

/// Bytes as one field.
pub fn bytes(bytes: &[u8]) -> String {
    if bytes.len() <= WHOLE {
        protocol::bytes(bytes)
    } else {
        format!("#{}", checksum(bytes.iter().copied().map(u16::from)))
    }
}

/// Cells as one field.
pub fn cells(cells: &[u16]) -> String {
    if cells.len() <= WHOLE {
        protocol::cells(cells)
    } else {
        format!("#{}", checksum(cells.iter().copied()))
    }
}

/// Each number and one more is a digit to the base 65,599, the first the highest;
/// this is what they make modulo the largest prime of 32 bits.
fn checksum(numbers: impl Iterator<Item = u16>) -> u64 {
    numbers.fold(0, |sum, number| {
        (sum * 65_599 + u64::from(number) + 1) % 4_294_967_291
    })
}

#[cfg(test)]
mod tests {
    use super::*;

    #[test]
    fn checksums_by_hand() {
        let of = |numbers: &[u16]| checksum(numbers.iter().copied());
        assert_eq!(of(&[]), 0);
        assert_eq!(of(&[4, 65_535]), 5 * 65_599 + 65_536);
        let wrapped = (65_536_u64 * 65_599 + 1) % 4_294_967_291;
        assert_eq!(of(&[65_535, 0]), wrapped);
    }

    #[test]
    fn long_ones_are_summed() {
        assert_eq!(bytes(&[0; 256]).len(), 512);
        assert_eq!(cells(&[0; 257]), bytes(&[0; 257]));
        assert!(bytes(&[0; 257]).starts_with('#'));
    }
}
