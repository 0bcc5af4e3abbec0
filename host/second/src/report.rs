//! What the thin program prints for a pack (01, "Rule pack").

use crate::verdicts::verdicts;
use crate::verifier::Verdict;

/// 01: "prints `TTTT accepted` or `TTTT refused N at AAAA` for each entry, or only
/// `pack refused N` (tag and address as four upper-case hex digits, N decimal, a
/// line feed after each)."
pub fn report(pack: &[u8]) -> String {
    match verdicts(pack) {
        Ok(verdicts) => verdicts.iter().map(line).collect(),
        Err(number) => format!("pack refused {number}\n"),
    }
}

fn line((tag, verdict): &(u16, Verdict)) -> String {
    match verdict {
        Verdict::Accepted => format!("{tag:04X} accepted\n"),
        Verdict::RefusedAt(number, address) => {
            format!("{tag:04X} refused {number} at {address:04X}\n")
        }
        Verdict::Refused(number) => unreachable!("{number} in a good pack"),
    }
}

#[cfg(test)]
mod tests {
    use super::*;
    use crate::pack;

    #[test]
    fn the_example() {
        let pack = [
            0x01, 0x00, 0x07, 0x00, 0x02, 0x00, 0x0A, 0x00, 0x04, 0x00, 0x85, 0x83, 0x15, 0x00,
        ];
        assert_eq!(report(&pack), "0007 accepted\n");
        assert_eq!(report(&pack[..13]), "pack refused 34\n");
        assert_eq!(report(&[]), "pack refused 30\n");
        assert_eq!(report(&[0, 0]), "");
    }

    #[test]
    fn lines_in_the_order_of_the_entries() {
        let mut room = [0; 64];
        let bodies = [0x81, 0x3C, 0x00, 0x00];
        let length = pack::write(
            &[0xA, 0xBCDE, 0xF00D],
            &[1, 0, 0],
            &[3, 1, 0],
            &bodies,
            &mut room,
        );
        assert_eq!(
            report(&room[..length.unwrap_or_default()]),
            "000A refused 10 at 0001\nBCDE accepted\nF00D refused 1 at 0000\n"
        );
    }
}
