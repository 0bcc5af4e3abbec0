//! One case of the verifier, put together part by part.

use crate::cases::fields;
use crate::cases::lent::Lent;
use crate::cases::pieces::{laid, piece, written, Piece};
use crate::cases::Vectors;
use crate::protocol;
use crate::verifier::verify;

/// What a map holds before where a case does not say otherwise: neither depths
/// nor 65,535.
const PATTERN: [u16; 3] = [0xA1A1, 0x80B2, 0x00C3];

/// A case that is being put together.
#[derive(Clone)]
pub struct Case {
    pieces: Vec<Piece>,
    cells: usize,
    map: Lent<u16>,
}

impl Case {
    /// A program with a map as long as it is.
    pub fn of(program: &[u8], cells: usize) -> Case {
        Case::of_pieces(&[piece(1, program)], cells)
    }

    /// The same, the program in pieces.
    pub fn of_pieces(pieces: &[Piece], cells: usize) -> Case {
        let mut case = Case {
            pieces: pieces.to_vec(),
            cells,
            map: Lent::whole(&[]),
        };
        let length = laid(pieces).len();
        case.map = Lent::repeated(&PATTERN[..length.min(3)], length);
        case
    }

    /// The same with a map of another length.
    pub fn map_length(self, length: usize) -> Case {
        Case {
            map: Lent::repeated(&PATTERN[..length.min(3)], length),
            ..self
        }
    }

    /// The same with a map that holds a cell over and over.
    pub fn map_of(self, cell: u16) -> Case {
        let map = Lent::repeated(&[cell], self.map.length);
        Case { map, ..self }
    }

    /// Adds the case with its answer.
    pub fn add(self, vectors: &mut Vectors) {
        let mut map = self.map.memory();
        let verdict = verify(&laid(&self.pieces), self.cells, &mut map);
        let answer = format!("{} {}", protocol::verdict(&verdict), fields::cells(&map));
        vectors.add(&self.bytes(), &answer);
    }

    /// The case in its binary form.
    fn bytes(&self) -> Vec<u8> {
        let mut bytes = vec![b'V'];
        bytes.extend((self.cells as u32).to_le_bytes());
        bytes.extend((self.map.length as u32).to_le_bytes());
        bytes.extend((self.map.given.len() as u16).to_le_bytes());
        bytes.extend(self.map.given.iter().flat_map(|cell| cell.to_le_bytes()));
        bytes.extend(written(&self.pieces));
        bytes
    }
}
