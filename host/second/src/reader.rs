//! The reader (01, "Listing"): "a reader that keeps hold of the lent program and
//! gives one instruction at a time, answering as the decoder does; on a refusal it
//! doesn't move."

use crate::instruction::{decode, Instruction};

/// A program and the address that was come to.
pub struct Reader<'a> {
    program: &'a [u8],
    address: usize,
}

impl<'a> Reader<'a> {
    /// A reader at address 0.
    pub fn new(program: &'a [u8]) -> Reader<'a> {
        Reader {
            program,
            address: 0,
        }
    }

    /// Where the next instruction is read.
    pub fn address(&self) -> usize {
        self.address
    }

    /// The instruction here and its length; the reader is then behind it.
    pub fn read(&mut self) -> Result<(Instruction, usize), u32> {
        let (instruction, length) = decode(self.program, self.address)?;
        self.address += length;
        Ok((instruction, length))
    }
}

#[cfg(test)]
mod tests {
    use super::*;

    #[test]
    fn m1_to_its_end() {
        let mut reader = Reader::new(&[0x85, 0x83, 0x15, 0x00]);
        for address in 0..4 {
            assert_eq!(reader.address(), address);
            assert!(reader.read().is_ok());
        }
        assert_eq!(reader.read(), Err(1));
        assert_eq!((reader.read(), reader.address()), (Err(1), 4));
    }

    #[test]
    fn stuck_at_a_refusal() {
        for (program, number) in [(vec![0x80, 0x7F, 0x00], 2), (vec![0x80, 0x41, 0x00], 3)] {
            let mut reader = Reader::new(&program);
            assert!(reader.read().is_ok());
            assert_eq!((reader.read(), reader.address()), (Err(number), 1));
            assert_eq!((reader.read(), reader.address()), (Err(number), 1));
        }
        let program = [0; 16_385];
        let mut reader = Reader::new(&program);
        assert_eq!((reader.read(), reader.address()), (Err(20), 0));
    }
}
