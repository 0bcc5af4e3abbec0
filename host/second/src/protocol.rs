//! Answers as lines of text, in the form of the conformance protocol: bytes in
//! lower-case hex, two digits each, cells with four digits, `-` where there are
//! none, numbers in decimal.

use crate::admission::Closed;
use crate::instruction::Instruction;
use crate::machine::{Answer, State, Status};
use crate::pack::Entry;
use crate::shape::Shape;
use crate::verifier::Verdict;

/// Bytes as one field.
pub fn bytes(bytes: &[u8]) -> String {
    or_none(bytes.iter().map(|byte| format!("{byte:02x}")).collect())
}

/// Sixteen-bit cells as one field.
pub fn cells(cells: &[u16]) -> String {
    or_none(cells.iter().map(|cell| format!("{cell:04x}")).collect())
}

fn or_none(digits: String) -> String {
    if digits.is_empty() {
        "-".to_string()
    } else {
        digits
    }
}

/// A state as three fields.
pub fn state(state: &State) -> String {
    let status = match state.status {
        Status::Running => "running".to_string(),
        Status::Halted => "halted".to_string(),
        Status::Faulted(number) => format!("faulted:{number}"),
    };
    format!("{} {} {status}", state.address, state.depth)
}

/// The answer of `decode`.
pub fn decode_answer(answer: &Result<(Instruction, usize), u32>) -> String {
    match answer {
        Ok((instruction, length)) => {
            let Instruction {
                code,
                number,
                count,
                flags,
                values: [v0, v1, v2, v3],
            } = instruction;
            format!("ok {length} {code} {number} {count} {flags} {v0} {v1} {v2} {v3}")
        }
        Err(number) => format!("refused {number}"),
    }
}

/// The answer of what writes into a room (`encode`, `listing`, `writepack`), with
/// the room as it is afterwards.
pub fn room_answer(answer: &Result<usize, u32>, room: &[u8]) -> String {
    format!("{} {}", length_or_refusal(answer), bytes(room))
}

/// The same without the room.
pub fn length_or_refusal(answer: &Result<usize, u32>) -> String {
    match answer {
        Ok(length) => format!("ok {length}"),
        Err(number) => format!("refused {number}"),
    }
}

/// The answer of `shape`.
pub fn shape_answer(answer: &Option<Shape>) -> String {
    match answer {
        Some(Shape {
            length,
            taken,
            pushed,
        }) => format!("row {length} {taken} {pushed}"),
        None => "illegal".to_string(),
    }
}

/// The answer of `run` and of `step`, with the memories as they are afterwards.
pub fn run_answer(answer: &Answer, data: &[u8], stack: &[u16]) -> String {
    let (refusal, steps, after) = answer;
    let rest = format!("{} {} {}", state(after), bytes(data), cells(stack));
    match refusal {
        None => format!("ok {steps} {rest}"),
        Some(number) => format!("refused {number} {rest}"),
    }
}

/// A verdict without its map: the address is `-` where the refusal names none.
pub fn verdict(verdict: &Verdict) -> String {
    match verdict {
        Verdict::Accepted => "accepted".to_string(),
        Verdict::Refused(number) => format!("refused {number} -"),
        Verdict::RefusedAt(number, address) => format!("refused {number} {address}"),
    }
}

/// The answer of `verify`, with the map as it is afterwards.
pub fn verify_answer(answer: &Verdict, map: &[u16]) -> String {
    format!("{} {}", verdict(answer), cells(map))
}

/// The answer of `pack`.
pub fn pack_answer(answer: &Result<Vec<Entry>, u32>) -> String {
    match answer {
        Ok(entries) => {
            let fields = entries.iter().map(|entry| {
                let Entry {
                    tag,
                    cells,
                    offset,
                    length,
                } = entry;
                format!(" {tag} {cells} {offset} {length}")
            });
            format!("ok {}{}", entries.len(), fields.collect::<String>())
        }
        Err(number) => format!("refused {number}"),
    }
}

/// The answer of `find` and of `lookup`.
pub fn find_answer(answer: &Result<(Entry, &[u8]), u32>) -> String {
    match answer {
        Ok((entry, _)) => format!("found {} {} {}", entry.cells, entry.offset, entry.length),
        Err(number) => format!("refused {number}"),
    }
}

/// What `stream` answers to a close, and to an ask after it.
pub fn closed_answer(answer: &Closed) -> String {
    match answer {
        Ok(verdicts) => {
            let each = |(tag, it): &(u16, Verdict)| format!(" {tag} {}", verdict(it));
            let all: String = verdicts.iter().map(each).collect();
            format!("good {}{all}", verdicts.len())
        }
        Err(number) => format!("refused {number}"),
    }
}

/// The answer of `report`: each line feed as `|`.
pub fn report_answer(report: &str) -> String {
    or_none(report.replace('\n', "|"))
}

#[cfg(test)]
mod tests {
    use super::*;
    use crate::admission::Admission;
    use crate::instruction::{decode, encode};
    use crate::machine::{run, FRESH};
    use crate::pack;
    use crate::report::report;
    use crate::shape::shape;
    use crate::verifier::verify;

    #[test]
    fn decode_lines() {
        assert_eq!(decode_answer(&decode(&[0x85], 0)), "ok 1 128 5 0 0 0 0 0 0");
        assert_eq!(
            decode_answer(&decode(&[0xC9, 0x01, 0xFF, 0xFF], 0)),
            "ok 4 192 0 2 2 1 65535 0 0"
        );
        assert_eq!(decode_answer(&decode(&[], 0)), "refused 1");
    }

    #[test]
    fn encode_lines() {
        let halt = Instruction::default();
        let mut room = [0xAB, 0xCD];
        let answer = encode(&halt, &mut room);
        assert_eq!(room_answer(&answer, &room), "ok 1 00cd");
        let answer = encode(&halt, &mut []);
        assert_eq!(room_answer(&answer, &[]), "refused 25 -");
    }

    /// The protocol's own example; then a first byte of no instruction.
    #[test]
    fn shape_lines() {
        assert_eq!(shape_answer(&shape(0x3B)), "row 2 0 1");
        assert_eq!(shape_answer(&shape(0x5B)), "illegal");
    }

    /// The protocol's own example, which is M1.
    #[test]
    fn run_lines() {
        let mut stack = [0, 0];
        let answer = run(&[0x85, 0x83, 0x15, 0x00], &mut [], &mut stack, FRESH, 10);
        assert_eq!(
            run_answer(&answer, &[], &stack),
            "ok 4 3 1 halted - 0003fffe"
        );
        let deep = State { depth: 3, ..FRESH };
        let answer = run(&[0x00], &mut [1], &mut stack, deep, 10);
        assert_eq!(
            run_answer(&answer, &[1], &stack),
            "refused 24 0 3 running 01 0003fffe"
        );
    }

    /// The protocol's own example, which is M2; then M3, and a map too long.
    #[test]
    fn verify_lines() {
        let line = |cells, map: &mut [u16]| {
            let answer = verify(&[0x85, 0x83, 0x15, 0x00], cells, map);
            verify_answer(&answer, map)
        };
        assert_eq!(line(2, &mut [0; 4]), "accepted 0000000100020001");
        assert_eq!(line(1, &mut [0; 4]), "refused 5 1 ffffffffffffffff");
        assert_eq!(line(2, &mut [7; 5]), "refused 23 - 00070007000700070007");
    }

    /// The protocol's own examples of packs.
    #[test]
    fn pack_lines() {
        let bytes = [1, 0, 7, 0, 2, 0, 0x0A, 0, 4, 0, 0x85, 0x83, 0x15, 0];
        assert_eq!(pack_answer(&pack::entries(&bytes)), "ok 1 7 2 10 4");
        assert_eq!(pack_answer(&pack::entries(&[])), "refused 30");
        assert_eq!(find_answer(&pack::find(&bytes, 7)), "found 2 10 4");
        assert_eq!(find_answer(&pack::find(&bytes, 8)), "refused 36");
        assert_eq!(find_answer(&pack::lookup(&bytes, 7)), "found 2 10 4");
        assert_eq!(find_answer(&pack::lookup(&bytes[..13], 7)), "refused 34");
        assert_eq!(report_answer(&report(&bytes)), "0007 accepted|");
        assert_eq!(report_answer(&report(&[0, 0])), "-");
    }

    /// The protocol's own example; then two programs refused, and a second close.
    #[test]
    fn closed_lines() {
        let mut admission = Admission::default();
        let bytes = [1, 0, 7, 0, 2, 0, 0x0A, 0, 4, 0, 0x85, 0x83, 0x15, 0];
        assert_eq!(admission.chunk(&bytes), Ok(()));
        assert_eq!(closed_answer(&admission.close()), "good 1 7 accepted");
        assert_eq!(closed_answer(&admission.close()), "refused 37");
        let both = [
            2, 0, 1, 0, 0, 0, 18, 0, 0, 0, 255, 0, 0, 0, 18, 0, 1, 0, 0x7F,
        ];
        let mut admission = Admission::default();
        assert_eq!(admission.chunk(&both), Ok(()));
        assert_eq!(
            closed_answer(&admission.close()),
            "good 2 1 refused 1 0 255 refused 2 0"
        );
    }
}
