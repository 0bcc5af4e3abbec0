//! A case as a line of the protocol, field after field.

/// A line that is being written.
pub struct Line(Vec<u8>);

const DIGITS: &[u8; 16] = b"0123456789abcdef";

impl Line {
    /// A line that begins with the name of its family.
    pub fn new(family: &str) -> Line {
        Line(family.into())
    }

    /// A field as it stands.
    pub fn word(mut self, word: &str) -> Line {
        self.0.push(b' ');
        self.0.extend(word.as_bytes());
        self
    }

    /// A NUM.
    pub fn number(self, number: impl Into<u64>) -> Line {
        self.word(&number.into().to_string())
    }

    /// A NUM that is a size or an address.
    pub fn size(self, number: usize) -> Line {
        self.number(number as u64)
    }

    /// BYTES.
    pub fn bytes(self, bytes: &[u8]) -> Line {
        self.digits(2, bytes.iter().copied().map(u16::from))
    }

    /// U16S.
    pub fn cells(self, cells: &[u16]) -> Line {
        self.digits(4, cells.iter().copied())
    }

    fn digits(mut self, width: usize, numbers: impl ExactSizeIterator<Item = u16>) -> Line {
        self.0.push(b' ');
        if numbers.len() == 0 {
            self.0.push(b'-');
        }
        self.0.reserve(width * numbers.len());
        for number in numbers {
            for place in (0..width).rev() {
                let digit = number >> (4 * place) & 15;
                self.0.push(DIGITS[usize::from(digit)]);
            }
        }
        self
    }

    /// The whole line.
    pub fn text(self) -> Vec<u8> {
        self.0
    }
}

#[cfg(test)]
mod tests {
    use super::*;

    #[test]
    fn fields_of_each_kind() {
        let line = Line::new("run")
            .bytes(&[0x05, 0xAF])
            .bytes(&[])
            .cells(&[0x12AB, 3])
            .cells(&[])
            .size(10)
            .number(u32::MAX)
            .word("halted");
        assert_eq!(line.text(), b"run 05af - 12ab0003 - 10 4294967295 halted");
    }
}
