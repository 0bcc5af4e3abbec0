//! The verdicts on the programs of a whole pack.

use crate::numbers::UNMET;
use crate::pack::{self, Entry};
use crate::verifier::{verify, Verdict};

/// The verdict on each program, with its tag, in the order of the entries; or the
/// pack's own refusal.
pub fn verdicts(pack: &[u8]) -> Result<Vec<(u16, Verdict)>, u32> {
    let entries = pack::entries(pack)?;
    let verdict = |entry: &Entry| {
        let program = pack::program(pack, entry);
        let mut map = vec![UNMET; program.len()];
        (entry.tag, verify(program, entry.cells.into(), &mut map))
    };
    Ok(entries.iter().map(verdict).collect())
}

#[cfg(test)]
mod tests {
    use super::*;

    /// 81 3C 00 is M7, 00 a halt, and the last has no bytes.
    #[test]
    fn in_the_order_of_the_entries() {
        let mut room = [0; 64];
        let bodies = [0x81, 0x3C, 0x00, 0x00];
        let length = pack::write(&[3, 4, 9], &[1, 0, 0], &[3, 1, 0], &bodies, &mut room);
        assert_eq!(length, Ok(30));
        let expected = vec![
            (3, Verdict::RefusedAt(10, 1)),
            (4, Verdict::Accepted),
            (9, Verdict::RefusedAt(1, 0)),
        ];
        assert_eq!(verdicts(&room[..30]), Ok(expected));
        assert_eq!(verdicts(&room[..29]), Err(34));
        assert_eq!(verdicts(&[0, 0]), Ok(vec![]));
    }
}
