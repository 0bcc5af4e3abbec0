//! What a straight listing hides. It goes through a program from its first byte to
//! its last; a jump may lead into the bytes of one of its lines, and what runs from
//! there is no line of it.

use khalixoshi::{depths, UNMET};

use crate::{lines, words};

/// An address that is no line of the listing, and the line in whose bytes it is.
#[derive(Clone, Copy, Debug, PartialEq)]
pub struct Hidden {
    pub at: usize,
    pub line: usize,
}

/// What to say above the listing of a program, which may have so many cells.
pub fn warning(program: &[u8], cells: usize) -> Option<String> {
    match depths(program, cells) {
        Ok(map) => {
            let place = told(program, &met(program, &map))?;
            Some(format!(
                "the listing hides what runs: a path meets {place}; khx list --paths shows what runs"
            ))
        }
        Err(_) => {
            let place = told(program, &named(program));
            let named = place.map(|place| format!("a jump or a call leads to {place}"));
            let why = named.or_else(|| unnamed(program))?;
            Some(format!("the listing may hide what runs: {why}"))
        }
    }
}

/// What the listing hides of an accepted program: the addresses that its paths meet,
/// by its depth map.
pub fn met(program: &[u8], map: &[u16]) -> Vec<Hidden> {
    let met = (0..map.len()).filter(|at| map[*at] != UNMET);
    hidden(program, met)
}

/// What the listing may hide of a program that is not accepted: the addresses in it
/// that a line of the listing jumps to or calls.
fn named(program: &[u8]) -> Vec<Hidden> {
    let targets = lines::addresses(program, 0).filter_map(|at| lines::target(program, at));
    let mut targets: Vec<usize> = targets.filter(|to| *to < program.len()).collect();
    targets.sort_unstable();
    targets.dedup();
    hidden(program, targets)
}

/// What a program that is not accepted may meet inside the bytes of a line though none
/// names it: a jump or a call goes to where the stack says.
fn unnamed(program: &[u8]) -> Option<String> {
    let by_stack = |at: &usize| matches!(program[*at], 0x05..=0x08);
    let at = lines::addresses(program, 0).find(by_stack)?;
    let has_insides = lines::addresses(program, 0).count() < program.len();
    let text = lines::text_at(program, at)?;
    has_insides.then(|| format!("{at:04X} ({text}) leads to where the stack says"))
}

/// The first of some hidden addresses, and how many more there are.
fn told(program: &[u8], all: &[Hidden]) -> Option<String> {
    let Hidden { at, line } = *all.first()?;
    let text = lines::text_at(program, line).unwrap_or_default();
    let more = match all.len() - 1 {
        0 => String::new(),
        more => format!(", and {}", words::count(more, "more such place")),
    };
    Some(format!(
        "{at:04X}, inside the instruction at {line:04X} ({text}){more}"
    ))
}

/// Those of some ascending addresses that are no lines.
fn hidden(program: &[u8], addresses: impl IntoIterator<Item = usize>) -> Vec<Hidden> {
    let starts: Vec<usize> = lines::addresses(program, 0).collect();
    let of = |at: usize| match starts.binary_search(&at) {
        Ok(_) => None,
        Err(after) => Some(Hidden {
            at,
            line: starts[after - 1],
        }),
    };
    addresses.into_iter().filter_map(of).collect()
}
