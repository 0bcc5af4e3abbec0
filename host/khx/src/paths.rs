//! What the paths of an accepted program meet, address by address, and the bytes that
//! no path meets.

use std::collections::BTreeSet;

use khalixoshi::{decode, INSTRUCTION_MAX, UNMET};

use crate::lines;

/// The most bytes on a line of those that no path meets.
const BYTES: usize = 16;

/// A program and what its paths make of each of its bytes.
struct Paths<'a> {
    program: &'a [u8],
    map: &'a [u16],
    /// The addresses that a jump leads to.
    labels: BTreeSet<usize>,
    /// Which bytes belong to an instruction that is met.
    used: Vec<bool>,
}

/// The listing of what is met of an accepted program, by its depth map.
pub fn listing(program: &[u8], map: &[u16]) -> String {
    let paths = Paths::of(program, map);
    let mut listed = String::new();
    let mut at = 0;
    while at < program.len() {
        if paths.meet(at) {
            listed += &paths.line(at);
        } else if !paths.used[at] {
            let end = paths.unused_from(at);
            listed += &paths.bytes(at, end);
            at = end;
            continue;
        }
        at += 1;
    }
    listed
}

impl<'a> Paths<'a> {
    fn of(program: &'a [u8], map: &'a [u16]) -> Paths<'a> {
        let mut paths = Paths {
            program,
            map,
            labels: BTreeSet::new(),
            used: vec![false; program.len()],
        };
        for at in (0..program.len()).filter(|at| map[*at] != UNMET) {
            paths.labels.extend(lines::target(program, at));
            let end = paths.end(at);
            paths.used[at..end].fill(true);
        }
        paths
    }

    fn meet(&self, at: usize) -> bool {
        self.map[at] != UNMET
    }

    /// Where the instruction at an address ends.
    fn end(&self, at: usize) -> usize {
        at + decode(self.program, at).map_or(1, |read| read.length)
    }

    /// Where the bytes end that no path meets from an address on, or a line of them.
    fn unused_from(&self, at: usize) -> usize {
        let line = at..self.program.len().min(at + BYTES);
        let end = line.end;
        line.into_iter().find(|at| self.used[*at]).unwrap_or(end)
    }

    fn bytes(&self, from: usize, end: usize) -> String {
        let bytes = self.program[from..end].iter();
        let bytes: Vec<String> = bytes.map(|byte| format!("{byte:02X}")).collect();
        let (last, bytes) = (end - 1, bytes.join(" "));
        format!("{from:04X} .. {last:04X}  no path meets: {bytes}\n")
    }

    fn line(&self, at: usize) -> String {
        let label = match self.labels.contains(&at) {
            true => format!("L{at:04X}:\n"),
            false => String::new(),
        };
        let mut text = lines::text_at(self.program, at).unwrap_or_default();
        if let Some(target) = lines::target(self.program, at) {
            text += &format!(" -> L{target:04X}");
        }
        let depth = self.map[at];
        let inside = match self.around(at) {
            Some(outer) => format!("  (inside the instruction at {outer:04X})"),
            None => String::new(),
        };
        format!("{label}{at:04X} {text:<32} depth {depth}{inside}\n")
    }

    /// The nearest instruction met in whose bytes an address is.
    fn around(&self, at: usize) -> Option<usize> {
        let mut before = (at.saturating_sub(INSTRUCTION_MAX - 1)..at).rev();
        before.find(|outer| self.meet(*outer) && self.end(*outer) > at)
    }
}

#[cfg(test)]
mod tests {
    use super::*;
    use khalixoshi::depths;
    use second::cases::verify::programs;

    /// The address that a line begins with.
    fn address(line: &str) -> usize {
        usize::from_str_radix(&line[..4], 16).unwrap()
    }

    /// Of every accepted program: each address that is met stands there once, with its
    /// depth, and each byte is told, as part of an instruction or as one that is not met.
    #[test]
    fn all_is_told() {
        let mut accepted = 0;
        for (program, cells) in programs() {
            let map = match depths(&program, cells) {
                Ok(map) => map,
                Err(_) => continue,
            };
            accepted += 1;
            let mut met = vec![UNMET; program.len()];
            let mut told = vec![false; program.len()];
            let listed = listing(&program, &map);
            for line in listed.lines().filter(|line| !line.ends_with(':')) {
                let at = address(line);
                let length = match line.split_once("no path meets: ") {
                    Some((_, bytes)) => bytes.split(' ').count(),
                    None => {
                        let (_, rest) = line.split_once(" depth ").unwrap();
                        let depth = rest.split(' ').next().unwrap();
                        assert_eq!(met[at], UNMET, "{listed}");
                        met[at] = depth.parse().unwrap();
                        decode(&program, at).unwrap().length
                    }
                };
                told[at..at + length].fill(true);
            }
            assert_eq!(met, map, "{listed}");
            assert!(told.iter().all(|told| *told), "{listed}");
        }
        assert!(accepted > 100, "{accepted}");
    }
}
