//! Single instructions: read at an address, read one after the other, written; and what
//! their first byte alone says.

use crate::{c, Error, INSTRUCTION_MAX};

/// An instruction as a value. 80 to BF are code 80 with the six bits as the number;
/// C0 to FF are code C0 with count, flags and values. What the form lacks is 0.
#[derive(Clone, Copy, Debug, Default, PartialEq, Eq, Hash)]
pub struct Instruction {
    /// The code: the first byte, but for 80 to FF.
    pub code: u8,
    /// The number in the code.
    pub number: u16,
    /// How many values are pushed.
    pub count: u8,
    /// Bit i is set where value i has two bytes in the code.
    pub flags: u8,
    /// The values pushed, the first one first.
    pub values: [u16; 4],
}

/// What stands at an address.
#[derive(Clone, Copy, Debug, PartialEq, Eq)]
pub struct Decoded {
    /// The instruction.
    pub instruction: Instruction,
    /// Its length in bytes.
    pub length: usize,
}

/// The instruction at an address of a program. Refusals: 20, 1, 2, 3.
///
/// ```
/// use khalixoshi::{decode, Error};
///
/// let program = [0x85, 0xC9, 0x01, 0xFF, 0xFF];
/// assert_eq!(decode(&program, 0)?.instruction.number, 5);
///
/// let push = decode(&program, 1)?;
/// assert_eq!(push.length, 4);
/// assert_eq!((push.instruction.count, push.instruction.flags), (2, 0b10));
/// assert_eq!(push.instruction.values, [1, 65_535, 0, 0]);
///
/// assert_eq!(decode(&program, 5), Err(Error::End));
/// # Ok::<(), Error>(())
/// ```
pub fn decode(program: &[u8], at: usize) -> Result<Decoded, Error> {
    answered(c::decode(program, at))
}

/// Writes an instruction at the start of a room, and gives its length;
/// [`INSTRUCTION_MAX`] bytes of room are enough. Refusals: 26, 25, which leave the
/// room as it was.
///
/// ```
/// use khalixoshi::{encode, Error, Instruction};
///
/// let jump = Instruction { code: 0x3C, number: 6, ..Instruction::default() };
/// let mut room = [0xAA; 3];
/// assert_eq!(encode(&jump, &mut room), Ok(2));
/// assert_eq!(room, [0x3C, 0x06, 0xAA]);
///
/// let wide = Instruction { number: 256, ..jump };
/// assert_eq!(encode(&wide, &mut room), Err(Error::Unwritable));
/// assert_eq!(encode(&jump, &mut room[..1]), Err(Error::Room));
/// ```
pub fn encode(instruction: &Instruction, room: &mut [u8]) -> Result<usize, Error> {
    let [v0, v1, v2, v3] = instruction.values;
    let plain = c::Instruction {
        code: instruction.code,
        count: instruction.count,
        flags: instruction.flags,
        number: instruction.number,
        v0,
        v1,
        v2,
        v3,
    };
    let written = c::encode(plain, room);
    Error::unless_none(written.refusal).map(|()| written.length)
}

/// The bytes of an instruction. Refusal: 26.
///
/// ```
/// use khalixoshi::{encoded, Instruction};
///
/// assert_eq!(encoded(&Instruction { code: 0x80, number: 5, ..Instruction::default() })?, [0x85]);
/// # Ok::<(), khalixoshi::Error>(())
/// ```
pub fn encoded(instruction: &Instruction) -> Result<Vec<u8>, Error> {
    let mut room = [0; INSTRUCTION_MAX];
    let length = encode(instruction, &mut room)?;
    Ok(room[..length].to_vec())
}

/// What all instructions with the same first byte have.
#[derive(Clone, Copy, Debug, PartialEq, Eq, Hash)]
pub struct Shape {
    /// Their length in bytes, 1 to [`INSTRUCTION_MAX`].
    pub length: usize,
    /// How many values they take from the stack, at most 3.
    pub taken: usize,
    /// How many values they push, at most 4.
    pub pushed: usize,
}

/// One row of the table of all 256 first bytes; none where no instruction begins with
/// the byte. A shift's second byte is not in it: where that is over 15, [`decode`] refuses
/// the shifts 0x31 and 0x32 too, by [`Error::Illegal`].
///
/// ```
/// use khalixoshi::{shape, Shape};
///
/// // call-imm8 pushes the return address
/// assert_eq!(shape(0x3B), Some(Shape { length: 2, taken: 0, pushed: 1 }));
/// assert_eq!(shape(0x5B), None);
/// ```
pub fn shape(first: u8) -> Option<Shape> {
    let c::Row {
        refusal,
        length,
        taken,
        pushed,
    } = c::shape(first);
    (refusal == 0).then_some(Shape {
        length,
        taken,
        pushed,
    })
}

fn answered(decoded: c::Decoded) -> Result<Decoded, Error> {
    Error::unless_none(decoded.refusal)?;
    let plain = decoded.instruction;
    let instruction = Instruction {
        code: plain.code,
        number: plain.number,
        count: plain.count,
        flags: plain.flags,
        values: [plain.v0, plain.v1, plain.v2, plain.v3],
    };
    Ok(Decoded {
        instruction,
        length: decoded.length,
    })
}

/// Gives the instructions of a program one after the other, from address 0.
///
/// As an iterator it gives each instruction with its address, and ends at the
/// program's end; a refusal is the last that it gives.
///
/// ```
/// use khalixoshi::{Error, Reader};
///
/// let program = [0x85, 0x3C, 0x00, 0x7F];
/// let codes: Vec<_> = Reader::new(&program)
///     .map(|read| read.map(|(address, instruction)| (address, instruction.code)))
///     .collect();
/// assert_eq!(codes, [Ok((0, 0x80)), Ok((1, 0x3C)), Err(Error::Illegal)]);
/// ```
#[derive(Clone, Debug)]
pub struct Reader<'a> {
    program: &'a [u8],
    address: usize,
    refused: bool,
}

impl<'a> Reader<'a> {
    /// A reader at address 0.
    pub fn new(program: &'a [u8]) -> Reader<'a> {
        Reader {
            program,
            address: 0,
            refused: false,
        }
    }

    /// Where the next instruction is read.
    pub fn address(&self) -> usize {
        self.address
    }

    /// The instruction here; the reader is then behind it. On a refusal it stays, and
    /// answers the same when it is asked again. Refusals: 20, 1, 2, 3.
    ///
    /// ```
    /// use khalixoshi::{Error, Reader};
    ///
    /// let mut reader = Reader::new(&[0x3C, 0x00]);
    /// assert_eq!(reader.read()?.instruction.code, 0x3C);
    /// assert_eq!(reader.address(), 2);
    /// assert_eq!(reader.read(), Err(Error::End));
    /// # Ok::<(), Error>(())
    /// ```
    pub fn read(&mut self) -> Result<Decoded, Error> {
        answered(c::read(self.program, &mut self.address))
    }
}

impl Iterator for Reader<'_> {
    type Item = Result<(usize, Instruction), Error>;

    fn next(&mut self) -> Option<Self::Item> {
        if self.refused {
            return None;
        }
        let address = self.address;
        let read = self.read().map(|read| (address, read.instruction));
        self.refused = read.is_err();
        Some(read).filter(|read| *read != Err(Error::End))
    }
}

impl std::iter::FusedIterator for Reader<'_> {}
