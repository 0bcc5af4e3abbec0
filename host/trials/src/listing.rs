//! Cases of listing and read.

use second::opcodes::Opcode;

use crate::line::Line;
use crate::maker::{Maker, PROGRAM_BYTES};

/// The longest line of the protocol, less what stands around the two fields.
const LINE: usize = 400_000 - 10;

impl Maker<'_> {
    /// `listing PROGRAM ROOM`.
    pub fn listing(&mut self) -> Line {
        let program = self.program(32).bytes;
        let length = self.listing_length(&program);
        let mut room = self.room_for(length);
        room.truncate(LINE / 2 - program.len());
        Line::new("listing").bytes(&program).bytes(&room)
    }

    /// How long a listing is, so that the room can be just enough.
    fn listing_length(&self, program: &[u8]) -> usize {
        if program.len() > PROGRAM_BYTES {
            return 0;
        }
        let (mut at, mut length) = (0, 0);
        while at < program.len() {
            let (bytes, text) = self.line_length(&program[at..]);
            at += bytes;
            length += text;
        }
        length
    }

    /// How many bytes an instruction has, and its line in the listing.
    fn line_length(&self, program: &[u8]) -> (usize, usize) {
        const BYTE: (usize, usize) = (1, "0000 byte $00\n".len());
        let first = program[0];
        let name = Opcode::of(first).map_or(0, |opcode| opcode.name.len());
        let (bytes, operands) = match self.forms.of(first) {
            Some(form) if form.largest == 15 && program.get(1) > Some(&15) => return BYTE,
            Some(form) => (1 + form.width, [0, 4, 6][form.width]),
            None if first < 0x80 => return BYTE,
            None if first < 0xC0 => (1, 4),
            None => {
                let (count, flags) = (usize::from(first & 3) + 1, first >> 2 & 15);
                if flags >> count != 0 {
                    return BYTE;
                }
                let wide = flags.count_ones() as usize;
                (1 + count + wide, 4 * count + 2 * wide)
            }
        };
        match bytes <= program.len() {
            true => (bytes, "0000 \n".len() + name + operands),
            false => BYTE,
        }
    }

    /// `read PROGRAM COUNT`.
    pub fn read(&mut self) -> Line {
        let program = self.program(32).bytes;
        let count = match self.source.below(16) {
            0 => self.source.below(3),
            1..=3 if self.large => 65_535,
            _ if self.large => self.source.below(2_000),
            _ => self.source.below(program.len() + 3),
        };
        Line::new("read").bytes(&program).size(count)
    }
}

#[cfg(test)]
mod tests {
    use crate::forms::Forms;
    use crate::maker::Maker;
    use crate::source::Source;

    #[test]
    fn lengths_are_those_of_the_listing() {
        let forms = Forms::new();
        for number in 0..2_000 {
            let mut maker = Maker {
                source: Source::new(9, number),
                forms: &forms,
                large: false,
            };
            let program = maker.program(32).bytes;
            let mut room = vec![0; 20_000];
            let length = second::listing::listing(&program, &mut room);
            assert_eq!(Ok(maker.listing_length(&program)), length);
        }
    }
}
