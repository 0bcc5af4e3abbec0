//! Lines of a listing: the one above a rule, the one at an address, those around it.

use khalixoshi::pack::Entry;
use khalixoshi::{decode, listing, INSTRUCTION_MAX};

use crate::words::count;

/// How many lines are shown before a place, and how many after it.
const AROUND: usize = 4;

/// What stands above the listing of a pack's rule.
pub fn head(entry: &Entry) -> String {
    let (cells, bytes) = (count(entry.cells, "cell"), count(entry.length, "byte"));
    format!("{:04X}: {cells}, {bytes}", entry.tag)
}

/// What a listing has at an address of a program, without the address: a name and
/// its operands, or `byte $XX` where no instruction can be read.
pub fn text_at(program: &[u8], at: usize) -> Option<String> {
    let rest = program.get(at..)?;
    let window = &rest[..rest.len().min(INSTRUCTION_MAX)];
    let lines = listing(window).ok()?;
    let (_, text) = lines.lines().next()?.split_once(' ')?;
    Some(text.to_string())
}

/// Where the instruction at an address jumps to, or what it calls, if the code says so.
pub fn target(program: &[u8], at: usize) -> Option<usize> {
    let instruction = decode(program, at).ok()?.instruction;
    match instruction.code {
        0x3B..=0x3E | 0x55..=0x58 => Some(instruction.number.into()),
        _ => None,
    }
}

/// The listing around an address, the line at it marked. Before it the lines are
/// those of the whole listing; from it on they are read from that very address, as
/// the machine does, even where the listing has it inside an operand.
pub fn around(program: &[u8], place: usize) -> String {
    let before = addresses(program, 0).take_while(|at| *at < place);
    let before: Vec<usize> = before.collect();
    let near = &before[before.len().saturating_sub(AROUND)..];
    let after = addresses(program, place).take(1 + AROUND);
    let mut shown = String::new();
    for at in near.iter().copied().chain(after) {
        let mark = if at == place { '>' } else { ' ' };
        let text = text_at(program, at).unwrap_or_default();
        shown += &format!("  {mark} {at:04X} {text}\n");
    }
    if place >= program.len() {
        shown += &format!("  > {place:04X} (the program's end)\n");
    }
    shown
}

/// The line of the listing in whose bytes an address of a program is: itself, where
/// it is a line.
pub fn line_of(program: &[u8], place: usize) -> usize {
    let before = addresses(program, 0).take_while(|at| *at <= place);
    before.last().unwrap_or_default()
}

/// The addresses of a listing's lines, from one of them on.
pub fn addresses(program: &[u8], from: usize) -> impl Iterator<Item = usize> + '_ {
    let next = move |at: &usize| Some(at + decode(program, *at).map_or(1, |read| read.length));
    std::iter::successors(Some(from), next).take_while(move |at| *at < program.len())
}

#[cfg(test)]
mod tests {
    use super::*;

    /// The lines read here are those of the whole listing, byte by byte of any program.
    #[test]
    fn as_the_listing() {
        let programs: [&[u8]; 4] = [
            &[0x85, 0x83, 0x15, 0x00],
            &[0xC9, 0x01, 0xFF, 0xFF, 0x20, 0xFF, 1, 2, 3, 4, 5, 6, 7, 8],
            &[
                0x7F, 0x41, 0x00, 0x41, 0x01, 0x00, 0x31, 0x10, 0xC8, 0x05, 0xC3,
            ],
            &[],
        ];
        for program in programs {
            let lines: String = addresses(program, 0)
                .map(|at| format!("{at:04X} {}\n", text_at(program, at).unwrap()))
                .collect();
            assert_eq!(lines, listing(program).unwrap());
        }
    }

    #[test]
    fn a_place_inside_an_operand() {
        let program = [0x80, 0x41, 0x00, 0x15, 0x00];
        assert_eq!(
            around(&program, 3),
            "    0000 push-u8 $00\n    0001 eq--imm16 $1500\n  > 0003 sub\n    0004 halt\n"
        );
    }

    #[test]
    fn a_place_at_either_end() {
        assert_eq!(around(&[], 0), "  > 0000 (the program's end)\n");
        let halts = [0; 20];
        assert_eq!(around(&halts, 0).lines().count(), 5);
        assert_eq!(around(&halts, 10).lines().count(), 9);
        assert!(around(&halts, 19).ends_with("    0012 halt\n  > 0013 halt\n"));
    }
}
