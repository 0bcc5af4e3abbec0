//! Why a rule is refused, with its own numbers. The verdict is the library's, which
//! names the refusal and the instruction; here the second implementation goes the
//! same way, to tell what was met on it.

use std::collections::BTreeSet;

use khalixoshi::{depths, Refused, CELLS_MAX, UNMET};
use second::instruction::decode;
use second::machine::pushed;
use second::numbers::{CUT, ILLEGAL, PAST_END, TOO_FEW, TOO_MANY, TWO_DEPTHS};
use second::opcodes::Opcode;
use second::verifier::examine;

use crate::{lines, words};

/// How an address was met first.
#[derive(Clone, Copy)]
struct Met {
    depth: usize,
    /// The instruction that leads to it; none to the program's start.
    from: Option<usize>,
}

/// What an instruction leads to.
struct Lead {
    target: usize,
    depth: usize,
}

/// Where the walk over a program ends in a refusal.
struct Stop<'a> {
    program: &'a [u8],
    cells: usize,
    number: u32,
    at: usize,
    /// What is refused of all that the instruction leads to, by 1 and 10.
    lead: Option<Lead>,
    met: Vec<Option<Met>>,
}

/// What led to a refusal of a program, in one line; none where there is nothing to
/// add to its meaning, or where the walk here does not come to the same refusal.
pub fn refusal(program: &[u8], cells: usize, refused: Refused) -> Option<String> {
    let at = refused.at?;
    if program.is_empty() {
        return Some("the program is empty".to_string());
    }
    let stop = walk(program, cells)?;
    let same = stop.number as usize == refused.error.number() && stop.at == at;
    same.then(|| stop.told())?
}

/// A refusal and what led to it.
pub fn in_one_line(program: &[u8], cells: usize, refused: Refused) -> String {
    match refusal(program, cells, refused) {
        Some(why) => format!("{refused} ({why})"),
        None => refused.to_string(),
    }
}

/// Takes the lowest address met and not yet examined, as the verifier does.
fn walk(program: &[u8], cells: usize) -> Option<Stop<'_>> {
    let mut stop = Stop {
        program,
        cells,
        number: 0,
        at: 0,
        lead: None,
        met: vec![None; program.len()],
    };
    let start = Met {
        depth: 0,
        from: None,
    };
    stop.met[0] = Some(start);
    let mut pending = BTreeSet::from([0]);
    while let Some(at) = pending.iter().next().copied() {
        pending.remove(&at);
        stop.at = at;
        match stop.examined() {
            Ok(targets) => pending.extend(targets),
            Err(number) => {
                stop.number = number;
                return Some(stop);
            }
        }
    }
    None
}

impl Stop<'_> {
    /// The depth at which the instruction is met.
    fn depth(&self) -> usize {
        self.met[self.at].map_or(0, |met| met.depth)
    }

    /// The addresses that the instruction is the first to lead to, or its refusal.
    fn examined(&mut self) -> Result<Vec<usize>, u32> {
        let (depth, targets) = examine(self.program, self.cells, self.at, self.depth())?;
        let mut first = Vec::new();
        for target in targets {
            self.lead = Some(Lead { target, depth });
            match self.met.get_mut(target) {
                None => return Err(PAST_END),
                Some(Some(met)) if met.depth != depth => return Err(TWO_DEPTHS),
                Some(Some(_)) => {}
                Some(unmet) => {
                    let from = Some(self.at);
                    *unmet = Some(Met { depth, from });
                    first.push(target);
                }
            }
        }
        self.lead = None;
        Ok(first)
    }

    fn told(&self) -> Option<String> {
        match self.number {
            PAST_END => self.leads_out(),
            ILLEGAL | CUT => self.comes_from(),
            TOO_FEW => self.takes_too_many(),
            TOO_MANY => self.needs_cells(),
            TWO_DEPTHS => self.meets_again(),
            _ => None,
        }
    }

    fn leads_out(&self) -> Option<String> {
        let (at, target) = (self.at, self.lead.as_ref()?.target);
        let last = self.program.len() - 1;
        let next = decode(self.program, at).map_or(at, |(_, length)| at + length);
        let leads = if target == next { "leads on" } else { "leads" };
        Some(format!(
            "{at:04X} {leads} to {target:04X}, and the last byte is at {last:04X}"
        ))
    }

    fn comes_from(&self) -> Option<String> {
        let from = self.met[self.at]?.from?;
        let inside = match lines::line_of(self.program, self.at) {
            line if line == self.at => String::new(),
            line => format!(
                ", inside the instruction that the listing has at {line:04X} ({})",
                lines::text_at(self.program, line).unwrap_or_default()
            ),
        };
        Some(format!("a path comes here from {from:04X}{inside}"))
    }

    fn takes_too_many(&self) -> Option<String> {
        let takes = self.opcode()?.taken();
        let values = words::count(self.depth(), "value");
        Some(format!("it comes with {values} and takes {takes}"))
    }

    fn needs_cells(&self) -> Option<String> {
        let (instruction, _) = decode(self.program, self.at).ok()?;
        let opcode = self.opcode()?;
        let (depth, takes) = (self.depth(), opcode.taken());
        let pushes = pushed(opcode.operation, &instruction);
        let values = words::count(depth, "value");
        let needed = words::count(depth - takes + pushes, "cell");
        let (given, enough) = (self.cells, enough(self.program));
        Some(format!(
            "it comes with {values}, takes {takes} and pushes {pushes}: that needs {needed} (given: {given}); {enough}"
        ))
    }

    fn meets_again(&self) -> Option<String> {
        let (at, lead) = (self.at, self.lead.as_ref()?);
        let Lead { target, depth } = *lead;
        let first = self.met[target]?;
        let depth = words::count(depth, "value");
        let before = words::count(first.depth, "value");
        let from = match first.from {
            Some(from) => format!("from {from:04X}"),
            None => "as the program's start".to_string(),
        };
        Some(format!(
            "{at:04X} leads to {target:04X} with {depth}; {target:04X} was met first with {before}, {from}"
        ))
    }

    fn opcode(&self) -> Option<&'static Opcode> {
        Opcode::of(self.program[self.at])
    }
}

/// How many cells a program needs that has too few, or why more don't help.
fn enough(program: &[u8]) -> String {
    match depths(program, CELLS_MAX) {
        Ok(map) => {
            let met = map.into_iter().filter(|depth| *depth != UNMET);
            let most = met.max().unwrap_or_default();
            format!("with {most} it is accepted")
        }
        Err(refused) => format!("with 1,024 it is {refused}"),
    }
}

#[cfg(test)]
mod tests {
    use super::*;
    use khalixoshi::Error;
    use second::cases::verify::programs;

    /// The walk here comes to the library's refusals, and only to these.
    #[test]
    fn as_the_library() {
        let mut refusals = BTreeSet::new();
        for (program, cells) in programs() {
            if program.is_empty() {
                continue;
            }
            let here = walk(&program, cells).map(|stop| (stop.number as usize, Some(stop.at)));
            let there = depths(&program, cells).err();
            let there = there.map(|refused| (refused.error.number(), refused.at));
            assert_eq!(here, there, "{program:02X?}");
            refusals.extend(there.map(|(number, _)| number));
        }
        assert_eq!(refusals, BTreeSet::from([1, 2, 3, 4, 5, 8, 9, 10]));
    }

    /// Nothing is said of a refusal that the walk does not come to.
    #[test]
    fn another_refusal() {
        let program = [0x81, 0x3C, 0x00];
        let refused = |error, at| Refused { error, at };
        let told = |error, at| refusal(&program, 1, refused(error, at)).is_some();
        assert!(told(Error::TwoDepths, Some(1)));
        assert!(!told(Error::TwoDepths, Some(0)));
        assert!(!told(Error::End, Some(1)));
        assert!(!told(Error::CellsSize, None));
    }
}
